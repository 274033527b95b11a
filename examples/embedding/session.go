// Answers a script of requests and edits as `casbin_cli session` does, through the library, and asks some of it from many
// goroutines.
//
// Usage: session MODEL POLICY SCRIPT
package main

/*
#cgo CFLAGS: -I${SRCDIR}/../../include
#cgo LDFLAGS: ${SRCDIR}/../../out/libcasbin.a
#include "casbin.h"
*/
import "C"

import (
	"fmt"
	"os"
	"strings"
	"sync"
	"unsafe"
)

// Enforcer is an enforcer of one owner, whose calls change drafts and count from the next publish on; or a snapshot of one, which
// judges by what was published when it was taken, and takes no calls. Its zero value is closed. Goroutines that use one enforcer
// wait for each other; those that each have a snapshot do not.
type Enforcer struct {
	lock   sync.Mutex
	handle C.casbin_enforcer
}

// Decision is what a request was answered.
type Decision struct {
	Allowed      bool
	Version, Row uint32
}

// Error is a call that was not answered: its code, and the program's own line where there is one.
type Error struct {
	Code uint32
	Line string
}

func (e Error) Error() string { return fmt.Sprintf("casbin: code %d %s", e.Code, e.Line) }

// text gives the pointer and the length of a text; with the byte behind it the pointer is never null.
func text(s string) (*C.uint8_t, C.size_t) {
	bytes := append([]byte(s), 0)
	return (*C.uint8_t)(unsafe.Pointer(&bytes[0])), C.size_t(len(s))
}

// fields puts texts one behind the other, and gives where each ends; one place more, so that there is a first.
func fields(values []string) (string, []C.size_t) {
	ends := make([]C.size_t, len(values)+1)
	at := 0
	for i, value := range values {
		at += len(value)
		ends[i] = C.size_t(at)
	}
	return strings.Join(values, ""), ends
}

func decided(code C.uint32_t, told C.casbin_decision) (Decision, error) {
	if code != C.CASBIN_OK {
		return Decision{}, Error{uint32(code), fmt.Sprintf("cause %d at %d", told.cause, told.at)}
	}
	return Decision{told.kind == C.CASBIN_ALLOW, uint32(told.version), uint32(told.row)}, nil
}

// Open opens an enforcer of the texts of a model and of a policy, with options of the program, one a line.
func Open(model, policy, options string) (*Enforcer, error) {
	e := new(Enforcer)
	m, ml := text(model)
	p, pl := text(policy)
	o, ol := text(options)
	var line [256]C.uint8_t
	var length C.size_t
	code := C.casbin_open(m, ml, p, pl, o, ol, &e.handle, &line[0], C.size_t(len(line)), &length)
	if code != C.CASBIN_OK {
		if int(length) > len(line) {
			length = 0
		}
		return nil, Error{uint32(code), C.GoStringN((*C.char)(unsafe.Pointer(&line[0])), C.int(length))}
	}
	return e, nil
}

// Close closes the enforcer; one that is not closed leaks what it holds.
func (e *Enforcer) Close() {
	e.lock.Lock()
	defer e.lock.Unlock()
	C.casbin_close(&e.handle)
}

// Enforce judges the request of these texts by the published policy, or by a snapshot's.
func (e *Enforcer) Enforce(values ...string) (Decision, error) {
	e.lock.Lock()
	defer e.lock.Unlock()
	bytes, ends := fields(values)
	b, bl := text(bytes)
	var told C.casbin_decision
	code := C.casbin_enforce(&e.handle, b, bl, &ends[0], C.size_t(len(values)), &told)
	return decided(code, told)
}

// Call does one item of a script, and gives the line that answers it.
func (e *Enforcer) Call(item string) (string, error) {
	t, tl := text(item)
	line, err := e.told(func(room *C.uint8_t, size C.size_t, length *C.size_t) C.uint32_t {
		return C.casbin_call(&e.handle, t, tl, room, size, length)
	})
	return strings.TrimSuffix(strings.TrimPrefix(line, "1 "), "\n"), err
}

// Rule gives the rule of p with this number, from 1.
func (e *Enforcer) Rule(row uint32) (string, error) {
	return e.told(func(room *C.uint8_t, size C.size_t, length *C.size_t) C.uint32_t {
		return C.casbin_rule(&e.handle, C.uint32_t(row), room, size, length)
	})
}

// told gives the text that a call tells; where it is longer than the room it is asked for again.
func (e *Enforcer) told(call func(room *C.uint8_t, size C.size_t, length *C.size_t) C.uint32_t) (string, error) {
	e.lock.Lock()
	defer e.lock.Unlock()
	room := make([]C.uint8_t, 256)
	var length C.size_t
	code := call(&room[0], C.size_t(len(room)), &length)
	if int(length) > len(room) {
		room = make([]C.uint8_t, length)
		code = call(&room[0], length, &length)
	}
	told := C.GoStringN((*C.char)(unsafe.Pointer(&room[0])), C.int(length))
	if code != C.CASBIN_OK && code != C.CASBIN_REFUSED {
		return "", Error{uint32(code), told}
	}
	return told, nil
}

// Snapshot takes a snapshot of what the enforcer judges by; one of a snapshot shares its policy.
func (e *Enforcer) Snapshot() (*Enforcer, error) {
	e.lock.Lock()
	defer e.lock.Unlock()
	s := new(Enforcer)
	if code := C.casbin_snapshot(&e.handle, &s.handle); code != C.CASBIN_OK {
		return nil, Error{uint32(code), ""}
	}
	return s, nil
}

// ask prints the line of a request's answer, and compares it with what goroutines are answered by snapshots of the same policy.
func ask(enforcer *Enforcer, number int, request string) error {
	values := strings.Split(request, ",")
	for i := range values {
		values[i] = strings.TrimSpace(values[i])
	}
	told, err := enforcer.Enforce(values...)
	if err != nil {
		return err
	}
	if err := askAside(enforcer, values, told); err != nil {
		return err
	}
	verdict, place := "deny", "-"
	if told.Allowed {
		verdict = "allow"
	}
	if told.Row > 0 {
		rule, err := enforcer.Rule(told.Row)
		if err != nil {
			return err
		}
		place = fmt.Sprintf("p#%d %s", told.Row, rule)
	}
	fmt.Printf("%d %s @%d %s\n", number, verdict, told.Version, place)
	return nil
}

func askAside(enforcer *Enforcer, values []string, told Decision) error {
	first, err := enforcer.Snapshot()
	if err != nil {
		return err
	}
	defer first.Close()
	var group sync.WaitGroup
	wrong := make([]bool, 4)
	for i := range wrong {
		mine, err := first.Snapshot()
		if err != nil {
			return err
		}
		group.Add(1)
		go func(mine *Enforcer, wrong *bool) {
			defer group.Done()
			defer mine.Close()
			answer, err := mine.Enforce(values...)
			*wrong = err != nil || answer != told
		}(mine, &wrong[i])
	}
	group.Wait()
	for i, is := range wrong {
		if is {
			return fmt.Errorf("goroutine %d was answered otherwise", i)
		}
	}
	return nil
}

// items are the lines of a script that count, and its blocks up to their `end`.
func items(script string) []string {
	var all, block []string
	for _, line := range strings.Split(script, "\n") {
		switch trimmed := strings.TrimSpace(line); {
		case block != nil:
			block = append(block, line)
			if strings.TrimRight(line, " \t\r") == "end" {
				all, block = append(all, strings.Join(block, "\n")), nil
			}
		case strings.HasPrefix(line, "begin "):
			block = []string{line}
		case trimmed != "" && !strings.HasPrefix(trimmed, "#"):
			all = append(all, line)
		}
	}
	if block != nil {
		all = append(all, strings.Join(block, "\n"))
	}
	return all
}

func run(names []string) error {
	texts := make([]string, len(names))
	for i, name := range names {
		bytes, err := os.ReadFile(name)
		if err != nil {
			return err
		}
		texts[i] = string(bytes)
	}
	enforcer, err := Open(texts[0], texts[1], "")
	if err != nil {
		return err
	}
	defer enforcer.Close()
	for i, item := range items(texts[2]) {
		if strings.HasPrefix(item, "ask ") {
			if err := ask(enforcer, i+1, item[len("ask "):]); err != nil {
				return err
			}
			continue
		}
		line, err := enforcer.Call(item)
		if err != nil {
			return err
		}
		fmt.Println(i+1, line)
	}
	return nil
}

func main() {
	if len(os.Args) != 4 {
		fmt.Fprintln(os.Stderr, "usage: session MODEL POLICY SCRIPT")
		os.Exit(2)
	}
	if err := run(os.Args[1:]); err != nil {
		fmt.Fprintln(os.Stderr, err)
		os.Exit(1)
	}
}
