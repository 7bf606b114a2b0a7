// small_log FOLDER [forgets | skips]: a small replicated log whose journals are judged.
//
//	go build -o small_log examples/journals/go/*.go
//	./small_log run > run.json
//
// Two clients commit batches through proxies of their own to two logs, and a storage server pulls them, each as a
// goroutine. One log is killed and comes back, and a recovery locks the logs. The journals are left in FOLDER, and the
// script of them is printed. With forgets each log acknowledges version 5 and does not keep its record; with skips the
// storage server does not apply version 5.
package main

import (
	"fmt"
	"os"
	"path/filepath"
	"reflect"
	"sort"
	"sync"
	"time"
)

const (
	// the coordinated state at the start: one generation, epoch 257, of two logs, each tag on both, from version 1
	state   = "01010000000000000101" + "0202" + "0000000000000001" + "0000000000000000"
	commits = 20 // of each client; after half of them the first one kills a log, the second one begins the recovery
)

var (
	config  = object{"coordinators": 1, "degree": 2, "logs": 2, "proxies": 2, "shards": []string{""}}
	waiting = object{"waiting": object{}}
	bug     string
)

// A node acts under its mutex, and enters the act there.
type node struct {
	mutex   sync.Mutex
	name    object
	path    string
	journal *Journal
}

// asked answers a request and enters both: the reply's stamp.
func (it *node) asked(from object, kind, name string, ask any, seen uint64, answer func() object) (object, uint64) {
	it.mutex.Lock()
	defer it.mutex.Unlock()
	tell := answer()
	return tell, it.journal.Asked(from, object{kind: object{name: ask}}, object{kind: tell}, seen)
}

func refused(why string, its object) object {
	return object{"refused": object{"why": object{why: its}}}
}

type cell struct {
	node
	promised uint64
}

func (cell *cell) read(from object, ballot, seen uint64) (object, uint64) {
	return cell.asked(from, "cell", "read", object{"ballot": ballot}, seen, func() object {
		cell.promised = ballot
		return object{"promise": object{"value": state, "written": 257}}
	})
}

func (cell *cell) last() any {
	return object{"cell": object{"promised": cell.promised, "value": state, "written": 257}}
}

type sequencer struct {
	node
	version uint64
}

func (seq *sequencer) next(from object, proxy, request, seen uint64) (prev, version, stamp uint64) {
	ask := object{"proxy": proxy, "request": request, "step": 1}
	_, stamp = seq.asked(from, "seq", "next", ask, seen, func() object {
		prev, version = seq.version, seq.version+1
		seq.version = version
		return object{"numbered": object{"prev": prev, "request": request, "version": version}}
	})
	return
}

func (seq *sequencer) last() any {
	return object{"sequencer": object{"last": seq.version}}
}

// One client's proxy: it takes a batch, and repeats its pushes until both logs hold it or the epoch has ended.
type proxy struct {
	node
	number, known, request uint64
	hasEnded               bool
}

func (proxy *proxy) commit(cluster *cluster, its batch) {
	proxy.request++
	stamp := proxy.journal.Submitted(its, 1)
	seq := cluster.sequencer
	prev, version, seen := seq.next(proxy.name, proxy.number, proxy.request, stamp)
	numbered := object{"numbered": object{"prev": prev, "request": proxy.request, "version": version}}
	stamp = proxy.journal.Heard(seq.name, object{"seq": numbered}, waiting, nil, seen)
	ask := push{[][2]any{{0, its}}, 257, proxy.known, nil, prev, version}
	for left := cluster.logs; len(left) > 0 && !proxy.hasEnded; {
		log := left[0]
		left = append([]*logNode{}, left[1:]...)
		tell, seen := log.push(proxy.name, ask, stamp)
		outcome := waiting
		if _, isHeld := tell["held"]; isHeld && len(left) == 0 {
			proxy.known = version
			outcome = object{"committed": object{"version": version}}
		} else if reflect.DeepEqual(tell, refused("stopped", object{})) {
			proxy.hasEnded = true
			outcome = object{"ended": object{}}
		} else if !isHeld { // a gap: the version before is another proxy's, and still in flight
			left = append(left, log)
			time.Sleep(time.Millisecond)
		}
		stamp = proxy.journal.Heard(log.name, object{"log": tell}, outcome, nil, seen)
	}
}

func (proxy *proxy) last() any {
	return object{"proxy": object{"known": proxy.known}}
}

type storage struct {
	node
	version, floor, stamp uint64
	rows                  map[string]string
}

// pull asks a log for records, applies them, and has the log let go of them once they are known to be committed.
func (storage *storage) pull(log *logNode) {
	tell, seen := log.peek(storage.name, storage.version, 100, storage.stamp)
	its := tell["peeked"].(peeked)
	for _, record := range its.Records {
		if bug == "skips" && record.Version == 5 {
			continue
		}
		for _, mutation := range record.Batch {
			set := mutation["set"].(object)
			storage.rows[set["key"].(string)] = set["value"].(string)
		}
	}
	if storage.version < its.Upto {
		storage.version = its.Upto
	}
	floor := its.Known
	if storage.version < floor {
		floor = storage.version
	}
	if storage.floor < floor {
		storage.floor = floor
	}
	stamp := storage.journal.Heard(log.name, object{"log": tell}, nil, nil, seen)
	tell, seen = log.pop(storage.name, storage.floor, stamp)
	storage.stamp = storage.journal.Heard(log.name, object{"log": tell}, nil, nil, seen)
}

func (storage *storage) last() any {
	rows := [][2]string{}
	for key, value := range storage.rows {
		rows = append(rows, [2]string{key, value})
	}
	sort.Slice(rows, func(one, two int) bool { return rows[one][0] < rows[two][0] })
	its := object{"epoch": 257, "floor": storage.floor, "rows": rows, "version": storage.version}
	return object{"storage": its}
}

// The first half of a recovery: it reads the coordinated state, and locks the logs of its last generation.
type recoverer struct{ node }

func (it *recoverer) recover(cluster *cluster) {
	stamp := it.journal.Enter(object{"begun": object{}}, 0)
	tell, seen := cluster.cell.read(it.name, 513, stamp)
	stamp = it.journal.Heard(cluster.cell.name, object{"cell": tell}, nil, nil, seen)
	for _, log := range cluster.logs {
		tell, seen := log.lock(it.name, stamp)
		stamp = it.journal.Heard(log.name, object{"log": tell}, nil, nil, seen)
	}
}

func (it *recoverer) last() any {
	return object{"recoverer": object{"phase": "copying"}}
}

// ---- the cluster

type cluster struct {
	cell      *cell
	logs      []*logNode
	sequencer *sequencer
	proxies   []*proxy
	storage   *storage
	recoverer *recoverer
	folder    string
	ends      []func() error // each closes the journal of a node
	paths     []string
	err       error
}

// open opens the journal of a node, which is closed with its last state.
func (cluster *cluster) open(its *node, name object, file string, last func() any) {
	its.name, its.path = name, filepath.Join(cluster.folder, file+".journal")
	os.Remove(its.path) // of an earlier run
	journal, err := OpenJournal(its.path, name, 0)
	if err != nil {
		cluster.err = err
	}
	its.journal = journal
	cluster.paths = append(cluster.paths, its.path)
	cluster.ends = append(cluster.ends, func() error { return its.journal.Close(last()) })
}

func newCluster(folder string) (*cluster, error) {
	its := &cluster{folder: folder, err: os.MkdirAll(folder, 0o755)}
	its.cell = &cell{promised: 257}
	its.open(&its.cell.node, object{"cell": object{"index": 0}}, "cell-0", its.cell.last)
	its.sequencer = &sequencer{version: 1}
	its.open(&its.sequencer.node, object{"sequencer": object{"epoch": 257}}, "sequencer-257", its.sequencer.last)
	for at := uint64(0); at < 2; at++ {
		log := &logNode{durable: 1, pushes: map[uint64]push{}}
		its.open(&log.node, object{"log": object{"epoch": 257, "index": at}}, fmt.Sprint("log-257-", at), log.last)
		proxy := &proxy{number: at}
		name := object{"proxy": object{"epoch": 257, "number": at}}
		its.open(&proxy.node, name, fmt.Sprint("proxy-257-", at), proxy.last)
		its.logs, its.proxies = append(its.logs, log), append(its.proxies, proxy)
	}
	its.storage = &storage{rows: map[string]string{}}
	its.open(&its.storage.node, object{"storage": object{"tag": 0}}, "storage-0", its.storage.last)
	its.recoverer = &recoverer{}
	its.open(&its.recoverer.node, object{"recoverer": object{"ballot": 513}}, "recoverer-513", its.recoverer.last)
	return its, its.err
}

// client commits batches, each of which sets a key of its own and one that all batches set.
func (cluster *cluster) client(number int) {
	for count := 0; count < commits; count++ {
		if number == 0 && count == commits/2 {
			cluster.err = cluster.logs[1].kill()
		} else if number == 1 && count == commits/2 {
			cluster.recoverer.recover(cluster)
		}
		if proxy := cluster.proxies[number]; !proxy.hasEnded {
			own := fmt.Sprintf("%02x%02x", number, count)
			one := object{"set": object{"key": own, "value": "01"}}
			proxy.commit(cluster, batch{one, object{"set": object{"key": "ff", "value": own}}})
			time.Sleep(time.Millisecond)
		}
	}
}

func (cluster *cluster) pull() {
	for _, log := range cluster.logs {
		cluster.storage.pull(log)
	}
}

func (cluster *cluster) run() (string, error) {
	var clients sync.WaitGroup
	done := make(chan bool)
	clients.Add(2)
	for number := 0; number < 2; number++ {
		go func(number int) {
			defer clients.Done()
			cluster.client(number)
		}(number)
	}
	go func() {
		clients.Wait()
		close(done)
	}()
	for isRunning := true; isRunning; {
		cluster.pull()
		select {
		case <-done:
			isRunning = false
		case <-time.After(time.Millisecond):
		}
	}
	cluster.pull()
	for _, end := range cluster.ends {
		if err := end(); cluster.err == nil {
			cluster.err = err
		}
	}
	if cluster.err != nil {
		return "", cluster.err
	}
	return Script(config, cluster.paths...)
}

func main() {
	words := os.Args[1:]
	if len(words) == 2 {
		bug = words[1]
	}
	if len(words) < 1 || len(words) > 2 || bug != "" && bug != "forgets" && bug != "skips" {
		fmt.Fprintln(os.Stderr, "small_log FOLDER [forgets | skips]")
		os.Exit(2)
	}
	cluster, err := newCluster(words[0])
	script := ""
	if err == nil {
		script, err = cluster.run()
	}
	if err == nil {
		_, err = fmt.Println(script)
	}
	if err != nil {
		fmt.Fprintln(os.Stderr, "small_log:", err)
		os.Exit(4)
	}
}
