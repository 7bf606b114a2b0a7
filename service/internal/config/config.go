// Package config reads the one file in which a cluster is described. What is wrong is told with file, line and what is
// allowed; nothing is started then.
package config

import (
	"crypto/sha256"
	"encoding/hex"
	"os"
	"time"
)

// Machine is one machine of the cluster: it has an agent, with a folder of its own.
type Machine struct {
	Name     string
	Room     string
	HTTP     string
	Nkey     string
	Cells    []uint64
	Storages []uint64
	Line     int
}

// Keeper is one keeper. Its number is the recoverer's number in the ballots that it uses.
type Keeper struct {
	Number uint64
	Room   string
	HTTP   string
	Nkey   string
	Line   int
}

// Config is all that a cluster's file says.
type Config struct {
	Path    string
	Cluster string

	Coordinators uint64
	Logs         uint64
	Degree       uint64
	Proxies      uint64
	Shards       []string

	Node     []string            // the program of nodes with its first words
	Programs map[string][]string // by kind, where one has another program

	URLs        []string
	MaxPayload  int64
	CA          string
	Certificate string
	Key         string
	Nkey        string // of clients

	Alive    time.Duration
	Suspect  time.Duration
	Progress time.Duration
	Again    time.Duration
	Recovery time.Duration
	Start    time.Duration
	Patience time.Duration

	JournalKeep   bool
	JournalFsync  bool
	JournalRotate int64

	FileRoom int64 // how many bytes each of the two files of a cell or a log has room for

	Machines []*Machine
	Keepers  []*Keeper
}

// Read reads a file, or says what is wrong with it.
func Read(path string) (*Config, error) {
	text, err := os.ReadFile(path)
	if err != nil {
		return nil, err
	}
	return Parse(path, string(text))
}

// Parse reads the text of a file.
func Parse(path, text string) (*Config, error) {
	tables, err := readTables(path, text)
	if err != nil {
		return nil, err
	}
	it := &Config{
		Path: path, Programs: map[string][]string{}, MaxPayload: 64 << 20,
		Alive: 100 * time.Millisecond, Suspect: time.Second, Progress: 2 * time.Second, Again: 50 * time.Millisecond,
		Recovery: 10 * time.Second, Start: 10 * time.Second, Patience: 60 * time.Second, JournalKeep: true, JournalRotate: 64 << 20,
		FileRoom: 256 << 20,
	}
	for _, table := range tables {
		if err := it.take(table); err != nil {
			return nil, err
		}
	}
	if err := it.judge(tables[0]); err != nil {
		return nil, err
	}
	return it, nil
}

// take takes in the values of a table.
func (c *Config) take(table *Table) error {
	var fields []field
	switch table.Name {
	case "":
		fields = c.topFields()
	case "nats":
		fields = c.natsFields()
	case "time":
		fields = c.timeFields()
	case "journal":
		fields = c.journalFields()
	case "files":
		fields = c.fileFields()
	case "programs":
		fields = c.programFields()
	case "machine[]":
		machine := &Machine{Line: table.Line}
		c.Machines = append(c.Machines, machine)
		fields = machine.fields()
	case "keeper[]":
		keeper := &Keeper{Line: table.Line}
		c.Keepers = append(c.Keepers, keeper)
		fields = keeper.fields()
	default:
		return &Fault{c.Path, table.Line, "there is no table [" + table.Name + "]; " +
			"[nats], [time], [journal], [files], [programs], [[machine]] and [[keeper]] are"}
	}
	return fill(c.Path, table, fields)
}

// Machine finds a machine by its name.
func (c *Config) Machine(name string) *Machine {
	for _, machine := range c.Machines {
		if machine.Name == name {
			return machine
		}
	}
	return nil
}

// SetApart puts a machine without storage servers at a place, if there is one: the sequencer and the first proxies are to
// be there. A client whose answer is lost with its proxy asks a storage server what became of its put, so that it would
// wait until both came back if one machine had both.
func (c *Config) SetApart(machines []string, at uint64) {
	for other, name := range machines {
		if len(c.Machine(name).Storages) == 0 {
			machines[other], machines[at] = machines[at], machines[other]
			return
		}
	}
}

// Keeper finds a keeper by its number.
func (c *Config) Keeper(number uint64) *Keeper {
	for _, keeper := range c.Keepers {
		if keeper.Number == number {
			return keeper
		}
	}
	return nil
}

// Program is the command of a node of some kind.
func (c *Config) Program(kind string) []string {
	if words := c.Programs[kind]; words != nil {
		return words
	}
	return c.Node
}

// FileCluster is the cluster's name as the files of cells and logs have it. They have 16 bytes for it: of a longer one they
// have a part of its hash.
func (c *Config) FileCluster() string {
	if len(c.Cluster) <= 16 {
		return c.Cluster
	}
	its := sha256.Sum256([]byte(c.Cluster))
	return hex.EncodeToString(its[:8])
}

// BatchBytes is how many bytes the JSON of one batch may have. An answer to a peek has up to 100 batches, and is one
// message of the broker; the half is for what stands around them. What a recovery copies into new logs is two batches a
// proxy at most, which take half as many bytes there as in JSON: so it takes a quarter of their room.
func (c *Config) BatchBytes() int {
	most := c.MaxPayload / 200
	if its := c.FileRoom / int64(4*c.Proxies+1); its < most && c.FileRoom > 0 {
		most = its
	}
	return int(most)
}
