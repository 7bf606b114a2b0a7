// Package bus is the way to the broker: core NATS, at most once. Subjects begin with the cluster's name, so that two
// clusters on one broker do not hear each other. The last part of each subject is the sender, which a broker with nkeys
// lets nobody else write.
package bus

import (
	"context"
	"encoding/json"
	"fmt"
	"os"
	"strings"
	"sync"
	"sync/atomic"
	"time"

	"github.com/nats-io/nats.go"

	"fdbrec/service/internal/config"
	"fdbrec/service/internal/report"
)

// Clock is the greatest stamp that a process saw.
type Clock struct{ its uint64 }

// Jump is how far a message may move the clock: one that says more is none of ours, and would spend the stamps of all.
const Jump = 1 << 32

// Now is the clock's stamp.
func (c *Clock) Now() uint64 { return atomic.LoadUint64(&c.its) }

// See moves the clock to a stamp that lies ahead of it.
func (c *Clock) See(stamp uint64) {
	for {
		now := c.Now()
		if stamp <= now || atomic.CompareAndSwapUint64(&c.its, now, stamp) {
			return
		}
	}
}

// Takes says whether a message's stamp is one that may be seen.
func (c *Clock) Takes(stamp uint64) bool { return stamp < c.Now()+Jump && stamp < 1<<40 }

// Bus is a connection under a sender's name.
type Bus struct {
	conn   *nats.Conn
	prefix string
	sender string
	Clock  *Clock
	Counts *report.Counts
	linked int64 // when it was connected, in nanoseconds since it was made; 0 while it is not
	born   time.Time
	log    *report.Log
	mutex  sync.Mutex
	said   map[string]time.Time // what the broker refused, and when that was last logged
	why    error                // what it refused last
}

// Received is a message with the sender that its subject names.
type Received struct {
	Data   []byte
	Sender string
	Reply  string
	Token  string // the part before the sender
}

// Connect connects. With a log it goes on trying for ever, in the background, and says there what a broker refuses; else
// the first try counts.
func Connect(c *config.Config, sender, nkey string, log *report.Log, within time.Duration) (*Bus, error) {
	b := &Bus{prefix: "fdbrec." + c.Cluster + ".", sender: sender, Clock: &Clock{}, Counts: &report.Counts{}, born: time.Now(),
		log: log, said: map[string]time.Time{}}
	options, err := b.options(c, nkey, within)
	if err != nil {
		return nil, err
	}
	b.conn, err = nats.Connect(strings.Join(c.URLs, ","), options...)
	if err != nil {
		return nil, fmt.Errorf("no broker at %s: %v", strings.Join(c.URLs, ", "), err)
	}
	if b.conn.IsConnected() {
		b.link(true)
		if most := b.conn.MaxPayload(); most < c.MaxPayload {
			return nil, fmt.Errorf("the broker takes messages of %d bytes; max_payload in %s is %d", most, c.Path, c.MaxPayload)
		}
	}
	if log != nil {
		go b.watch()
	}
	return b, nil
}

// watch says each ten seconds that there is no broker, and why.
func (b *Bus) watch() {
	for !b.conn.IsClosed() {
		if !b.conn.IsConnected() {
			b.log.Warn("no broker", "why", b.conn.LastError())
		}
		time.Sleep(10 * time.Second)
	}
}

func (b *Bus) options(c *config.Config, nkey string, within time.Duration) ([]nats.Option, error) {
	its := []nats.Option{
		nats.Name(b.sender), nats.MaxReconnects(-1), nats.ReconnectWait(100 * time.Millisecond),
		nats.ReconnectJitter(50*time.Millisecond, 50*time.Millisecond), nats.ReconnectBufSize(-1),
		nats.PingInterval(500 * time.Millisecond), nats.MaxPingsOutstanding(2), nats.FlusherTimeout(time.Second),
		nats.Timeout(within), nats.RetryOnFailedConnect(b.log != nil), nats.CustomInboxPrefix(b.prefix + "inbox"),
		nats.DisconnectErrHandler(func(*nats.Conn, error) { b.link(false); b.Counts.Add("links lost", 1) }),
		nats.ReconnectHandler(func(*nats.Conn) { b.link(true); b.Counts.Add("links made again", 1) }),
		nats.ErrorHandler(func(_ *nats.Conn, _ *nats.Subscription, err error) { b.refused(err) }),
	}
	if b.log != nil {
		// (its key may be told the brokers later)
		its = append(its, nats.IgnoreAuthErrorAbort())
	}
	if c.CA != "" {
		its = append(its, nats.RootCAs(c.CA))
	}
	if c.Certificate != "" {
		its = append(its, nats.ClientCert(c.Certificate, c.Key))
	}
	if nkey == "" {
		nkey = c.Nkey
	}
	if nkey != "" {
		option, err := nats.NkeyOptionFromSeed(nkey)
		if err != nil {
			return nil, fmt.Errorf("nkey %s: %v", nkey, err)
		}
		its = append(its, option)
	}
	for _, path := range []string{c.CA, c.Certificate, c.Key} {
		if path == "" {
			continue
		}
		if _, err := os.Stat(path); err != nil {
			return nil, err
		}
	}
	return its, nil
}

// refused notes that the broker refused something, or that a message was dropped here: a line of the log each ten seconds.
func (b *Bus) refused(err error) {
	b.Counts.Add("messages refused or dropped", 1)
	b.mutex.Lock()
	defer b.mutex.Unlock()
	b.why = err
	if text := err.Error(); b.log != nil && time.Since(b.said[text]) > 10*time.Second && len(b.said) < 100 {
		b.said[text] = time.Now()
		b.log.Warn("the broker refused something, or a message was dropped", "why", text)
	}
}

// Why is what the broker refused last, or nil.
func (b *Bus) Why() error {
	b.mutex.Lock()
	defer b.mutex.Unlock()
	return b.why
}

func (b *Bus) link(is bool) {
	now := int64(0)
	if is {
		now = int64(time.Since(b.born)) + 1
	}
	atomic.StoreInt64(&b.linked, now)
}

// Linked is for how long there was a broker without a break; 0 without one.
func (b *Bus) Linked() time.Duration {
	since := atomic.LoadInt64(&b.linked)
	if since == 0 {
		return 0
	}
	return time.Since(b.born) - time.Duration(since) + 1
}

// TooSmall is how many bytes the broker takes in a message, if that is less than what is wanted; else 0.
func (b *Bus) TooSmall(wanted int64) int64 {
	if most := b.conn.MaxPayload(); b.conn.IsConnected() && most > 0 && most < wanted {
		return most
	}
	return 0
}

// Close ends the connection.
func (b *Bus) Close() { b.conn.Close() }

// Subject is the subject of which this process is the sender.
func (b *Bus) Subject(parts ...string) string {
	return b.prefix + strings.Join(parts, ".") + "." + b.sender
}

// Send sends a message, or counts that it is lost.
func (b *Bus) Send(message interface{}, parts ...string) {
	data, err := json.Marshal(message)
	if err == nil {
		err = b.conn.Publish(b.Subject(parts...), data)
	}
	b.sent(err)
}

// SendText sends a message whose text is made.
func (b *Bus) SendText(text []byte, parts ...string) {
	b.sent(b.conn.Publish(b.Subject(parts...), text))
}

func (b *Bus) sent(err error) {
	if err != nil {
		b.Counts.Add("messages lost at sending", 1)
		return
	}
	b.Counts.Add("messages sent", 1)
}

// Reply answers a request.
func (b *Bus) Reply(to string, message interface{}) {
	if to == "" {
		return
	}
	data, err := json.Marshal(message)
	if err == nil {
		err = b.conn.Publish(to, data)
	}
	b.sent(err)
}

// Ask sends a request and reads its answer.
func (b *Bus) Ask(ctx context.Context, message, answer interface{}, parts ...string) error {
	data, err := json.Marshal(message)
	if err != nil {
		return err
	}
	reply, err := b.conn.RequestWithContext(ctx, b.Subject(parts...), data)
	if err != nil {
		return err
	}
	return json.Unmarshal(reply.Data, answer)
}

// Collect sends a request to many, and hands each answer to a function until the time is over.
func (b *Bus) Collect(within time.Duration, message interface{}, take func([]byte), parts ...string) error {
	inbox := b.conn.NewRespInbox()
	answers, err := b.conn.SubscribeSync(inbox)
	if err != nil {
		return err
	}
	defer func() { _ = answers.Unsubscribe() }()
	data, err := json.Marshal(message)
	if err != nil {
		return err
	}
	if err := b.conn.PublishRequest(b.Subject(parts...), inbox, data); err != nil {
		return err
	}
	for end := time.Now().Add(within); time.Now().Before(end); {
		reply, err := answers.NextMsg(time.Until(end))
		if err != nil {
			return nil
		}
		if len(reply.Data) > 0 {
			take(reply.Data)
		}
	}
	return nil
}

// Hear calls a function for each message of a subject, whoever sends it. With a group one of those that hear it, whose
// group has this name, gets each message.
func (b *Bus) Hear(group string, take func(*Received), parts ...string) (func(), error) {
	handler := func(message *nats.Msg) {
		names := strings.Split(message.Subject, ".")
		take(&Received{message.Data, names[len(names)-1], message.Reply, names[len(names)-2]})
	}
	subject := b.prefix + strings.Join(parts, ".") + ".*"
	var its *nats.Subscription
	var err error
	if group == "" {
		its, err = b.conn.Subscribe(subject, handler)
	} else {
		its, err = b.conn.QueueSubscribe(subject, group, handler)
	}
	if err != nil {
		return nil, err
	}
	return func() { _ = its.Unsubscribe() }, nil
}
