package main

import (
	"fmt"
	"path/filepath"
	"strconv"

	"fdbrec/service/internal/agent"
	"fdbrec/service/internal/config"
	"fdbrec/service/internal/keeper"
)

func (w *words) machine() (*config.Config, *config.Machine, error) {
	its, err := w.config()
	if err != nil {
		return nil, nil, err
	}
	found := its.Machine(w.options["machine"])
	if found == nil {
		return nil, nil, bad("--machine: %s has no machine %q", its.Path, w.options["machine"])
	}
	return its, found, nil
}

func initialize(w *words) error {
	if w.options["number"] != "" {
		return initializeKeeper(w)
	}
	its, machine, err := w.machine()
	if err != nil {
		return err
	}
	if err := agent.Init(its, machine, w.options["join"] != ""); err != nil {
		return &ending{3, err.Error()}
	}
	fmt.Printf("%s is made: machine %s of cluster %s\n", machine.Room, machine.Name, its.Cluster)
	return nil
}

func runAgent(w *words) error {
	its, machine, err := w.machine()
	if err != nil {
		return err
	}
	log, err := w.log(machine.Name)
	if err != nil {
		return err
	}
	if machine.Room, err = filepath.Abs(machine.Room); err != nil {
		return err
	}
	running, err := agent.New(its, machine, log)
	if err != nil {
		return &ending{3, err.Error()}
	}
	if err := serveHTTP(machine.HTTP, running.Health, running.Metrics); err != nil {
		return &ending{3, err.Error()}
	}
	return running.Run(stopped())
}

func (w *words) keeper() (*config.Config, *config.Keeper, error) {
	its, err := w.config()
	if err != nil {
		return nil, nil, err
	}
	number, _ := strconv.ParseUint(w.options["number"], 10, 8)
	found := its.Keeper(number)
	if found == nil {
		return nil, nil, bad("--number: %s has no keeper %q", its.Path, w.options["number"])
	}
	return its, found, nil
}

func initializeKeeper(w *words) error {
	its, found, err := w.keeper()
	if err != nil {
		return err
	}
	if err := keeper.Init(its, found); err != nil {
		return &ending{3, err.Error()}
	}
	fmt.Printf("%s is made: keeper %d of cluster %s\n", found.Room, found.Number, its.Cluster)
	return nil
}

func runKeeper(w *words) error {
	its, found, err := w.keeper()
	if err != nil {
		return err
	}
	log, err := w.log(fmt.Sprintf("keeper-%d", found.Number))
	if err != nil {
		return err
	}
	running, err := keeper.New(its, found, log)
	if err != nil {
		return &ending{3, err.Error()}
	}
	if err := serveHTTP(found.HTTP, running.Health, running.Metrics); err != nil {
		return &ending{3, err.Error()}
	}
	return running.Run(stopped())
}
