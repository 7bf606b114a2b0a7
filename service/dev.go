package main

import (
	"fmt"
	"net"
	"os"
	"os/exec"
	"path/filepath"
	"strconv"
	"strings"
	"sync"
	"syscall"
	"time"

	"fdbrec/service/internal/agent"
	"fdbrec/service/internal/config"
	"fdbrec/service/internal/keeper"
)

// dev runs a cluster on one machine: a broker, agents and two keepers, each a process that is started again if it ends.
func dev(w *words) error {
	if len(w.rest) != 1 {
		return bad("dev wants one folder")
	}
	folder, err := filepath.Abs(w.rest[0])
	if err != nil {
		return err
	}
	path := filepath.Join(folder, "service.toml")
	if _, err := os.Stat(path); err != nil {
		if err := w.writeDev(folder, path); err != nil {
			return err
		}
	}
	if w.options["write"] != "" {
		fmt.Println(path)
		return nil
	}
	its, err := config.Read(path)
	if err != nil {
		return &ending{2, err.Error()}
	}
	if _, err := exec.LookPath("nats-server"); err != nil {
		return bad("there is no nats-server: apt-get install -y nats-server")
	}
	return runDev(folder, path, its)
}

func runDev(folder, path string, its *config.Config) error {
	self, err := os.Executable()
	if err != nil {
		return err
	}
	commands := map[string][]string{"broker": {"nats-server", "-c", filepath.Join(folder, "broker.conf")}}
	for _, machine := range its.Machines {
		if _, err := os.Stat(filepath.Join(machine.Room, "room.json")); err != nil {
			if err := agent.Init(its, machine, false); err != nil {
				return &ending{3, err.Error()}
			}
		}
		commands[machine.Name] = []string{self, "agent", "--config", path, "--machine", machine.Name}
	}
	for _, each := range its.Keepers {
		if _, err := os.Stat(filepath.Join(each.Room, "keeper.json")); err != nil {
			if err := keeper.Init(its, each); err != nil {
				return &ending{3, err.Error()}
			}
		}
		name := fmt.Sprintf("keeper-%d", each.Number)
		commands[name] = []string{self, "keeper", "--config", path, "--number", fmt.Sprint(each.Number)}
	}
	stop := stopped()
	var all sync.WaitGroup
	for name, words := range commands {
		all.Add(1)
		go func(name string, words []string) { defer all.Done(); supervise(folder, name, words, stop) }(name, words)
	}
	fmt.Printf("%s: %d agents, %d keepers; their logs are in %s\n", path, len(its.Machines), len(its.Keepers), filepath.Join(folder, "logs"))
	all.Wait()
	return nil
}

// supervise runs a process, and a second after it ended runs it again. The broker ends last.
func supervise(folder, name string, words []string, stop <-chan struct{}) {
	log, err := os.OpenFile(filepath.Join(folder, "logs", name), os.O_WRONLY|os.O_CREATE|os.O_APPEND, 0o644)
	if err != nil {
		fmt.Fprintln(os.Stderr, err)
		return
	}
	defer func() { _ = log.Close() }()
	for {
		its := exec.Command(words[0], words[1:]...)
		its.Stdout, its.Stderr = log, log
		its.SysProcAttr = &syscall.SysProcAttr{Setpgid: true}
		ended := make(chan struct{})
		if err := its.Start(); err != nil {
			fmt.Fprintln(os.Stderr, err)
			close(ended)
		} else {
			_ = os.WriteFile(filepath.Join(folder, "logs", name+".pid"), []byte(strconv.Itoa(its.Process.Pid)+"\n"), 0o644)
			go func() { _ = its.Wait(); close(ended) }()
		}
		select {
		case <-stop:
			if name == "broker" {
				time.Sleep(500 * time.Millisecond)
			}
			if its.Process != nil {
				_ = its.Process.Signal(syscall.SIGTERM)
				<-ended
			}
			return
		case <-ended:
		}
		select {
		case <-stop:
			return
		case <-time.After(time.Second):
		}
	}
}

func freePort() int {
	listener, err := net.Listen("tcp", "127.0.0.1:0")
	if err != nil {
		return 14222
	}
	defer func() { _ = listener.Close() }()
	return listener.Addr().(*net.TCPAddr).Port
}

// writeDev writes the configuration of such a cluster.
func (w *words) writeDev(folder, path string) error {
	count := 5
	if text := w.options["machines"]; text != "" {
		var err error
		if count, err = strconv.Atoi(text); err != nil || count < 3 || count > 16 {
			return bad("--machines: found %q, wanted a number from 3 to 16", text)
		}
	}
	node, err := nodeProgram(w.options["node"])
	if err != nil {
		return err
	}
	if err := os.MkdirAll(filepath.Join(folder, "logs"), 0o755); err != nil {
		return err
	}
	port := freePort()
	broker := fmt.Sprintf("listen: 127.0.0.1:%d\nmax_payload: 67108864\nmax_pending: 268435456\nwrite_deadline: \"2s\"\n", port)
	if err := os.WriteFile(filepath.Join(folder, "broker.conf"), []byte(broker), 0o644); err != nil {
		return err
	}
	return os.WriteFile(path, []byte(devConfig(folder, node, count, port)), 0o644)
}

// nodeProgram is the program of nodes: what is given, the built fdbrec_node, or the one of examples/foreign.
func nodeProgram(given string) ([]string, error) {
	if given != "" {
		return strings.Fields(given), nil
	}
	if built := os.Getenv("BUILT_FDBREC_NODE"); built != "" {
		return []string{built, "node"}, nil
	}
	self, err := os.Executable()
	if err != nil {
		return nil, err
	}
	top := filepath.Dir(filepath.Dir(self))
	for _, each := range [][]string{{"crates/fdbrec_node/out/fdbrec_node", "node"}, {"examples/foreign/node"}} {
		path := filepath.Join(top, each[0])
		if info, err := os.Stat(path); err != nil || info.Mode()&0o111 == 0 {
			continue
		}
		if len(each) > 1 {
			return []string{path, each[1]}, nil
		}
		if _, err := os.Stat("/usr/bin/python3"); err == nil {
			return []string{"/usr/bin/python3", path}, nil // (which may start faster than what env finds)
		}
		return []string{path}, nil
	}
	return nil, bad("no program of nodes is found: --node \"PROGRAM WORDS\"")
}

func devConfig(folder string, node []string, count, port int) string {
	logs := 4
	if count < 4 {
		logs = count
	}
	var made strings.Builder
	words := []string{}
	for _, each := range node {
		words = append(words, strconv.Quote(each))
	}
	fmt.Fprintf(&made, "cluster = \"dev\"\nnode = [%s]\ncoordinators = 3\nlogs = %d\ndegree = 2\nproxies = 2\n", strings.Join(words, ", "), logs)
	fmt.Fprintf(&made, "shards = [\"\", \"6d\"]\n\n[nats]\nurls = [\"nats://127.0.0.1:%d\"]\n", port)
	fmt.Fprintf(&made, "\n[time]\nalive = \"100ms\"\nsuspect = \"700ms\"\n\n[journal]\nfsync = false\n")
	for at := 0; at < count; at++ {
		fmt.Fprintf(&made, "\n[[machine]]\nname = \"m%d\"\nroom = %q\n", at, filepath.Join(folder, fmt.Sprintf("m%d", at)))
		if at < 3 {
			fmt.Fprintf(&made, "cells = [%d]\n", at)
		}
		if at >= count-2 {
			fmt.Fprintf(&made, "storages = [%d]\n", at-count+2)
		}
	}
	for number := 1; number <= 2; number++ {
		fmt.Fprintf(&made, "\n[[keeper]]\nnumber = %d\nroom = %q\n", number, filepath.Join(folder, fmt.Sprintf("k%d", number)))
	}
	return made.String()
}
