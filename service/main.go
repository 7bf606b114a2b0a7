// Command fdbrec-service runs a cluster of fdbrec's nodes on several machines: an agent on each, keepers that begin
// recoveries, and clients. docs/SERVICE.md is its page for operators.
package main

import (
	"fmt"
	"os"
	"os/signal"
	"strings"
	"syscall"

	"fdbrec/service/internal/config"
	"fdbrec/service/internal/report"
)

const usage = `fdbrec-service COMMAND --config FILE ..

  init --machine NAME [--join]    make the folder of a machine, once; --join: of one that is added to a cluster that runs
  init --number N                 make the folder of a keeper, once
  agent --machine NAME            run the nodes of a machine
  keeper --number N               watch the cluster, and begin recoveries
  status [--json]                 print how the cluster is
  recover                         begin a recovery: to use machines that came back, or another logs and degree
  put KEY VALUE                   commit a value; print epoch and version
  clear BEGIN [END]               commit that a key, or the keys from BEGIN up to END, have none
  add KEY NUMBER                  commit that 8 bytes, little-endian, become greater by a number
  get KEY [--settled | --stale]   print a value, as of all that was acknowledged before; --settled: as of the last
                                  version that no recovery takes back; --stale: where the storage server is
  watch KEY                       print each value that a key comes to have and keeps
  bench --clients K --seconds N | --commits N [--keys M] [--bytes B] [--proxies P] [--acks FILE] [--trace FILE]
                                  put keys of their own, M in a commit (1), with values of B bytes (100), for so long or
                                  so many commits; --proxies: at least P are used from the start on; --acks writes down
                                  each key that was acknowledged, --trace when that commit began and ended, in
                                  nanoseconds since 1970
  check --acks FILE               read what such a file has; status 1 if one is missing
  dump                            have each shard's rows, at a version that no recovery takes back, written into a file on
                                  the machine of its storage server; print where they are
  load FILE..                     put the rows of such files
  nkeys                           make the nkeys that FILE names, and print what brokers are told of them
  journals ROOM..                 print the journals of these folders as one script of an audit
  journals --drop-before EPOCH ROOM..   drop the journals of nodes of epochs before this one, which no state names any
                                  more, and older files of the other nodes: no audit is possible then
  dev FOLDER [--machines N]       run broker, agents and keepers of a cluster of its own on this machine, in FOLDER
  dev FOLDER --write              only write FOLDER/service.toml and FOLDER/broker.conf

KEY and VALUE are texts; with --hex they are bytes in hex. --within TIME is how long a command tries, 5s if not given.
--log debug|info|warn|error says what agents and keepers write on standard error, a line of JSON each.
Status: 0 done; 1 not done, or missing; 2 bad words or configuration; 3 the folder is not this one's, or in use.
`

// ending is an error with the status that the program ends with.
type ending struct {
	status int
	why    string
}

func (e *ending) Error() string { return e.why }

func bad(why string, words ...interface{}) error { return &ending{2, fmt.Sprintf(why, words...)} }

var commands = map[string]func(*words) error{
	"init": initialize, "agent": runAgent, "keeper": runKeeper, "status": status, "recover": recoverNow, "put": put,
	"clear": clearKeys, "add": add, "get": get, "watch": watch, "bench": bench, "check": check, "journals": journals,
	"dev": dev, "nkeys": makeKeys, "dump": dump, "load": load,
}

func main() {
	if len(os.Args) < 2 || os.Args[1] == "--help" || os.Args[1] == "help" {
		to, status := os.Stdout, 0
		if len(os.Args) < 2 {
			to, status = os.Stderr, 2
		}
		fmt.Fprint(to, usage)
		os.Exit(status)
	}
	do := commands[os.Args[1]]
	if do == nil {
		fmt.Fprintf(os.Stderr, "there is no command %q\n%s", os.Args[1], usage)
		os.Exit(2)
	}
	its, err := parse(os.Args[2:])
	if err == nil {
		err = do(its)
	}
	if err != nil {
		fmt.Fprintln(os.Stderr, err)
		if its, is := err.(*ending); is {
			os.Exit(its.status)
		}
		os.Exit(1)
	}
}

// words are the words of a command: options with their values, and the others.
type words struct {
	options map[string]string
	rest    []string
}

var valued = map[string]bool{"config": true, "machine": true, "number": true, "within": true, "log": true, "seconds": true,
	"clients": true, "acks": true, "trace": true, "machines": true, "broker": true, "node": true,
	"commits": true, "keys": true, "bytes": true, "proxies": true, "drop-before": true}
var plain = map[string]bool{"json": true, "hex": true, "settled": true, "stale": true, "write": true, "join": true}

func parse(its []string) (*words, error) {
	found := &words{options: map[string]string{}}
	for at := 0; at < len(its); at++ {
		name := strings.TrimPrefix(its[at], "--")
		switch {
		case its[at] == "--":
			found.rest = append(found.rest, its[at+1:]...)
			return found, nil
		case !strings.HasPrefix(its[at], "--"):
			found.rest = append(found.rest, its[at])
		case plain[name]:
			found.options[name] = "yes"
		case valued[name] && at+1 < len(its):
			at++
			found.options[name] = its[at]
		case valued[name]:
			return nil, bad("--%s wants a value", name)
		default:
			return nil, bad("there is no option %s", its[at])
		}
	}
	return found, nil
}

// config reads the file that --config, or the environment's FDBREC_CONFIG, names.
func (w *words) config() (*config.Config, error) {
	path := w.options["config"]
	if path == "" {
		path = os.Getenv("FDBREC_CONFIG")
	}
	if path == "" {
		return nil, bad("--config FILE is wanted, or FDBREC_CONFIG in the environment")
	}
	its, err := config.Read(path)
	if err != nil {
		return nil, &ending{2, err.Error()}
	}
	return its, nil
}

func (w *words) log(who string) (*report.Log, error) {
	level, is := report.Levels[w.options["log"]]
	if w.options["log"] == "" {
		level, is = report.Levels["info"], true
	}
	if !is {
		return nil, bad("--log: found %q, wanted debug, info, warn or error", w.options["log"])
	}
	return report.New(who, level), nil
}

// stopped is closed when the process is asked to end.
func stopped() <-chan struct{} {
	signals, stop := make(chan os.Signal, 1), make(chan struct{})
	signal.Notify(signals, syscall.SIGTERM, syscall.SIGINT)
	go func() {
		<-signals
		close(stop)
		<-signals // (a second one ends it at once)
		os.Exit(1)
	}()
	return stop
}
