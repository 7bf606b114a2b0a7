package agent

import (
	"encoding/json"
	"fmt"
	"hash/maphash"
	"strconv"
	"strings"
	"sync"

	"fdbrec/service/internal/bus"
	"fdbrec/service/internal/names"
	"fdbrec/service/internal/raw"
	"fdbrec/service/internal/wire"
)

// listen hears orders, what others say of themselves, of epochs and of commits, and who asks how this machine is.
func (a *Agent) listen() error {
	for _, each := range []struct {
		take  func(*bus.Received)
		parts []string
	}{
		{a.ordered, []string{"agent", a.machine.Name}},
		{a.others, []string{"alive"}},
		{a.epoch, []string{"epoch"}},
		{a.movement, []string{"moved"}},
		{func(m *bus.Received) { a.bus.Reply(m.Reply, a.standing()) }, []string{"status"}},
		{func(m *bus.Received) { its, _ := a.newestAndMoved(); a.bus.Reply(m.Reply, its) }, []string{"who"}},
	} {
		if _, err := a.bus.Hear("", each.take, each.parts...); err != nil {
			return err
		}
	}
	return nil
}

// parse reads a message, or counts it as one that is none of ours.
func (a *Agent) parse(m *bus.Received, to interface{}, at *uint64) bool {
	if err := json.Unmarshal(m.Data, to); err != nil || at != nil && !a.bus.Clock.Takes(*at) {
		a.strange(m, "it is none of ours")
		return false
	}
	if at != nil {
		a.bus.Clock.See(*at)
	}
	return true
}

func (a *Agent) strange(m *bus.Received, why string) {
	a.bus.Counts.Add("messages that are none of ours", 1)
	a.log.Debug("a message is dropped", "sender", m.Sender, "why", why)
}

// receive takes an ask or a tell for a node of this machine.
func (a *Agent) receive(n *node, m *bus.Received) {
	var its wire.Message
	if err := its.Read(m.Data); err != nil {
		a.strange(m, err.Error())
		return
	}
	if err := its.Judge(n.name); err != nil {
		a.strange(m, err.Error())
		return
	}
	if host := a.hostOf(its.From); host != "" && host != m.Sender {
		a.strange(m, fmt.Sprintf("%s is on %s", its.From.Spoken(), host))
		return
	}
	if !a.bus.Clock.Takes(its.At) {
		a.strange(m, "its stamp is too far ahead")
		return
	}
	a.deliver(n, &its)
}

// hostOf is the machine that a node is on, as far as this one knows.
func (a *Agent) hostOf(name names.Node) string {
	for _, machine := range a.config.Machines {
		for _, index := range machine.Cells {
			if name.Kind == "cell" && name.First == index {
				return machine.Name
			}
		}
		for _, tag := range machine.Storages {
			if name.Kind == "storage" && name.First == tag {
				return machine.Name
			}
		}
	}
	a.mutex.Lock()
	defer a.mutex.Unlock()
	return a.hosts[name.Token()]
}

// deliver gives a message to a node of this machine.
func (a *Agent) deliver(n *node, its *wire.Message) {
	a.bus.Clock.See(its.At)
	from := its.From
	it := &item{body: body{Type: its.Type, From: &from, Ask: its.Ask, Tell: its.Tell}}
	it.key = keyOf(from, its.Ask, its.Tell)
	if n.name.Kind == "log" {
		it.sort, it.from, it.to = pushed(its.Ask)
		it.until = its.Until
	}
	n.put(it)
}

// send sends an ask or a tell: here, if the node is on this machine.
func (a *Agent) send(to names.Node, its *wire.Message) {
	its.At = a.bus.Clock.Now()
	if n := a.find(to.Token()); n != nil {
		a.deliver(n, its)
		return
	}
	text, err := its.Text()
	if err != nil {
		a.log.Error("a message cannot be spelled", "to", to.Spoken(), "why", err)
		return
	}
	a.bus.SendText(text, "node", to.Token())
}

var seed = maphash.MakeSeed()

// keyOf is a short name of an ask or a tell. Two that differ have one name about once in 2^64 times; then one of them is
// taken for a repeat, and is asked again.
func keyOf(from names.Node, ask, tell []byte) string {
	return from.Token() + strconv.FormatUint(hashed(ask, tell), 16)
}

func hashed(one, other []byte) uint64 {
	var its maphash.Hash
	its.SetSeed(seed)
	_, _ = its.Write(one)
	_, _ = its.Write(other)
	return its.Sum64()
}

// others takes in which nodes other machines have.
func (a *Agent) others(m *bus.Received) {
	if m.Sender == a.machine.Name {
		return
	}
	at, is := raw.Number(raw.Member(m.Data, "at"))
	if !is || !a.bus.Clock.Takes(at) {
		a.strange(m, "it is none of ours")
		return
	}
	a.bus.Clock.See(at)
	a.mutex.Lock()
	defer a.mutex.Unlock()
	raw.Members(raw.Member(m.Data, "nodes"), func(token string, _ []byte) bool {
		if a.hosts[token] == "" && len(a.hosts) < 100000 {
			a.hosts[token] = m.Sender
		}
		return true
	})
}

func (a *Agent) epoch(m *bus.Received) {
	var its wire.Epoch
	if a.parse(m, &its, &its.At) {
		a.learn(&its)
	}
}

func (a *Agent) movement(m *bus.Received) {
	var its wire.Moved
	if a.parse(m, &its, &its.At) {
		a.moves(&its)
	}
}

func (a *Agent) submit(n *node, m *bus.Received) {
	var its wire.Submit
	if a.parse(m, &its, &its.At) && m.Reply != "" {
		n.proxy.submit(&its, func(told wire.Submitted) {
			told.At = a.bus.Clock.Now()
			a.bus.Reply(m.Reply, told)
		})
	}
}

func (a *Agent) read(n *node, m *bus.Received) {
	var its wire.Read
	if a.parse(m, &its, &its.At) && m.Reply != "" {
		n.storage.ask(its, m.Reply)
	}
}

// ordered does what a keeper orders. An order may come twice: what is done already is done.
func (a *Agent) ordered(m *bus.Received) {
	var its wire.Order
	if !a.parse(m, &its, &its.At) {
		return
	}
	if !strings.HasPrefix(m.Sender, "keeper-") {
		a.strange(m, "it is no keeper's order")
		return
	}
	go func() {
		why := a.obey(its)
		a.bus.Reply(m.Reply, wire.Answer{Done: why == nil, Why: text(why), At: a.bus.Clock.Now()})
	}()
}

func text(err error) string {
	if err == nil {
		return ""
	}
	return err.Error()
}

func (a *Agent) obey(its wire.Order) error {
	lock := a.lockOf(its.Node)
	lock.Lock()
	defer lock.Unlock()
	switch kind := its.Node.Kind; {
	case its.First || kind == "cell" || kind == "storage":
		return fmt.Errorf("a %s is made by init alone", kind)
	case its.Do == "start":
		return a.startNode(its)
	case its.Do == "end" && !its.Node.HasFiles():
		return a.endNode(its, "ended")
	case its.Do == "drop" && kind == "log":
		return a.endNode(its, "dropped")
	}
	return fmt.Errorf("it is no order")
}

// lockOf lets one order after another be done of each node.
func (a *Agent) lockOf(name names.Node) *sync.Mutex {
	lock, _ := a.orders.LoadOrStore(name, &sync.Mutex{})
	return lock.(*sync.Mutex)
}

func (a *Agent) startNode(its wire.Order) error {
	if a.isOver(its.Node) {
		return fmt.Errorf("its epoch is over")
	}
	old, err := a.recordOf(its.Node)
	if err != nil {
		return err
	}
	if old != nil {
		if n := a.find(its.Node.Token()); n != nil && old.State != "gone" {
			return nil
		}
		return fmt.Errorf("it was started here before")
	}
	a.mutex.Lock()
	halted := a.halted
	a.mutex.Unlock()
	if halted {
		return fmt.Errorf("this agent is stopping")
	}
	// (noted first, so that a node without files never starts twice)
	if err := a.noteStart(its); err != nil {
		return err
	}
	a.add(its, "starting")
	return nil
}

// endNode ends a node for good. A log's files go too; its journal stays.
func (a *Agent) endNode(its wire.Order, state string) error {
	old, err := a.recordOf(its.Node)
	if err != nil {
		return err
	}
	if n := a.find(its.Node.Token()); n != nil {
		a.remove(n)
		a.forget(n.name)
	}
	if old == nil || old.State == "ended" || old.State == "dropped" {
		return nil
	}
	if err := a.note(old.Order, state); err != nil {
		return err
	}
	if state == "dropped" {
		if err := removeAll(a.files(its.Node)); err != nil {
			return err
		}
	}
	a.log.Info("node", "node", its.Node.Spoken(), "state", state)
	if a.isOver(its.Node) {
		return a.erase(its.Node)
	}
	return nil
}
