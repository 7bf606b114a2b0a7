package main

import (
	"fmt"
	"os"
	"strings"

	"github.com/nats-io/nkeys"

	"fdbrec/service/internal/config"
)

// permits are what each kind of key may publish. The last part of a subject is its sender, so a machine cannot speak for
// the nodes of another one; replies go to inboxes.
func permits(c *config.Config, sender string) (publish, subscribe []string) {
	prefix := "fdbrec." + c.Cluster + "."
	inbox := prefix + "inbox.>"
	if sender == "client" {
		for _, each := range []string{"submit", "read", "dump", "who", "status", "recover"} {
			publish = append(publish, prefix+each+".>")
		}
		return publish, []string{prefix + "epoch.*", inbox}
	}
	parts := []string{"keeper", "epoch"}
	orders := []string{prefix + "agent.*." + sender}
	if c.Machine(sender) != nil {
		parts, orders = []string{"alive", "epoch", "moved"}, []string{prefix + "node.*." + sender}
	}
	for _, each := range parts {
		publish = append(publish, prefix+each+"."+sender)
	}
	return append(append(publish, orders...), inbox), []string{prefix + ">"}
}

// makeKeys makes the keys that a configuration names, where they are not there yet, and prints what a broker has to be
// told of them.
func makeKeys(w *words) error {
	its, err := w.config()
	if err != nil {
		return err
	}
	fmt.Println("authorization {\n  users = [")
	for _, machine := range its.Machines {
		if err := makeKey(its, machine.Name, machine.Nkey); err != nil {
			return err
		}
	}
	for _, keeper := range its.Keepers {
		if err := makeKey(its, fmt.Sprintf("keeper-%d", keeper.Number), keeper.Nkey); err != nil {
			return err
		}
	}
	if err := makeKey(its, "client", its.Nkey); err != nil {
		return err
	}
	fmt.Println("  ]\n}")
	return nil
}

func makeKey(c *config.Config, sender, path string) error {
	if path == "" {
		return bad("%s: %s has no nkey", c.Path, sender)
	}
	seed, err := os.ReadFile(path)
	if os.IsNotExist(err) {
		made, err := nkeys.CreateUser()
		if err != nil {
			return err
		}
		if seed, err = made.Seed(); err != nil {
			return err
		}
		if err := os.WriteFile(path, append(seed, '\n'), 0o600); err != nil {
			return err
		}
	} else if err != nil {
		return err
	}
	pair, err := nkeys.FromSeed([]byte(strings.TrimSpace(string(seed))))
	if err != nil {
		return fmt.Errorf("%s: %v", path, err)
	}
	public, err := pair.PublicKey()
	if err != nil {
		return err
	}
	publish, subscribe := permits(c, sender)
	fmt.Printf("    { nkey: %s, permissions: {\n        publish: [%s]\n        subscribe: [%s] } } # %s\n", public,
		quotedList(publish), quotedList(subscribe), sender)
	return nil
}

func quotedList(its []string) string {
	for at := range its {
		its[at] = fmt.Sprintf("%q", its[at])
	}
	return strings.Join(its, ", ")
}
