// Package process runs the program of a node: lines go to its standard input, answers come from its standard output.
package process

import (
	"bufio"
	"errors"
	"fmt"
	"io"
	"os"
	"os/exec"
	"runtime"
	"strings"
	"sync"
	"syscall"
	"time"
)

// Room is how many bytes a pipe takes that nobody reads yet.
const Room = 1 << 16

// Process is a node's program as it runs. Answers has its lines, and is closed at its end.
type Process struct {
	Answers chan []byte
	command *exec.Cmd
	input   *os.File
	ended   chan struct{}
	status  error
	said    string // the path of what it writes on standard error
	before  int64  // how many bytes were there before it
}

// starter starts all programs from one thread that never ends: the kernel kills them when that thread does, so that no
// node outlives its agent.
var starter struct {
	once sync.Once
	todo chan func()
}

func inStarter(do func()) {
	starter.once.Do(func() {
		starter.todo = make(chan func())
		go func() {
			runtime.LockOSThread()
			for each := range starter.todo {
				each()
			}
		}()
	})
	done := make(chan struct{})
	starter.todo <- func() { do(); close(done) }
	<-done
}

// ErrInUse says that another process has the node's lock.
var ErrInUse = errors.New("another process runs this node")

// Start starts a program. It inherits a lock, so that the lock is free exactly when the program has ended. What it
// writes on standard error is appended to a file.
func Start(words []string, lockPath, saidPath string, patience time.Duration) (*Process, error) {
	lock, err := locked(lockPath, patience)
	if err != nil {
		return nil, err
	}
	defer func() { _ = lock.Close() }()
	said, err := os.OpenFile(saidPath, os.O_WRONLY|os.O_CREATE|os.O_APPEND, 0o644)
	if err != nil {
		return nil, err
	}
	defer func() { _ = said.Close() }()
	before, err := said.Seek(0, io.SeekEnd)
	if err != nil {
		return nil, err
	}
	theirs, mine, err := os.Pipe()
	if err != nil {
		return nil, err
	}
	out, told, err := os.Pipe()
	if err != nil {
		_, _ = theirs.Close(), mine.Close()
		return nil, err
	}
	p := &Process{Answers: make(chan []byte, 64), input: mine, ended: make(chan struct{}), said: saidPath, before: before}
	p.command = exec.Command(words[0], words[1:]...)
	p.command.Stdin, p.command.Stdout, p.command.Stderr = theirs, told, said
	p.command.ExtraFiles = []*os.File{lock}
	p.command.SysProcAttr = &syscall.SysProcAttr{Pdeathsig: syscall.SIGKILL, Setpgid: true}
	inStarter(func() { err = p.command.Start() })
	_, _ = theirs.Close(), told.Close()
	if err != nil {
		_, _ = mine.Close(), out.Close()
		return nil, fmt.Errorf("%s cannot be started: %v", words[0], err)
	}
	go p.read(out)
	return p, nil
}

// locked locks a file, and waits for a process that still has it.
func locked(path string, patience time.Duration) (*os.File, error) {
	lock, err := os.OpenFile(path, os.O_RDWR|os.O_CREATE, 0o644)
	if err != nil {
		return nil, err
	}
	for end := time.Now().Add(patience); ; time.Sleep(5 * time.Millisecond) {
		err = syscall.Flock(int(lock.Fd()), syscall.LOCK_EX|syscall.LOCK_NB)
		if err == nil {
			return lock, nil
		}
		if time.Now().After(end) {
			_ = lock.Close()
			return nil, ErrInUse
		}
	}
}

// read hands out whole lines. A line that was cut off is none.
func (p *Process) read(out *os.File) {
	reader := bufio.NewReaderSize(out, 1<<16)
	for {
		line, err := reader.ReadBytes('\n')
		if err != nil {
			break
		}
		p.Answers <- line
	}
	_ = out.Close()
	p.status = p.command.Wait()
	close(p.ended)
	close(p.Answers)
}

// Write gives lines. It waits if the node does not read them.
func (p *Process) Write(lines []byte) error {
	_, err := p.input.Write(lines)
	return err
}

// Pid is its number.
func (p *Process) Pid() int { return p.command.Process.Pid }

// Kill kills it. What it wrote before can still be read.
func (p *Process) Kill() { _ = p.command.Process.Kill() }

// End ends its input, and kills it if it has not ended in time. Answers that come meanwhile are dropped.
func (p *Process) End(patience time.Duration) {
	_ = p.input.Close()
	late := time.AfterFunc(patience, p.Kill)
	defer late.Stop()
	for range p.Answers {
	}
}

// Status says how it ended, once Answers is closed.
func (p *Process) Status() string {
	<-p.ended
	if p.status == nil {
		return "it ended with status 0"
	}
	return p.status.Error()
}

// Code is the status with which it ended, once Answers is closed; -1 if it was killed.
func (p *Process) Code() int {
	<-p.ended
	return p.command.ProcessState.ExitCode()
}

// Said is the last line that it wrote on standard error, of its last 400 bytes. What an earlier process of the node wrote
// is none of it.
func (p *Process) Said() string {
	file, err := os.Open(p.said)
	if err != nil {
		return ""
	}
	defer func() { _ = file.Close() }()
	from := p.before
	if info, err := file.Stat(); err == nil && info.Size()-400 > from {
		from = info.Size() - 400
	}
	data, _ := io.ReadAll(io.NewSectionReader(file, from, 400))
	lines := strings.Split(strings.TrimSpace(string(data)), "\n")
	return lines[len(lines)-1]
}
