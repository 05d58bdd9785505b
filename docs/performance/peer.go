// Runs a workload's text as `gosync run` does, on Go's own types: with a goroutine for each worker, and the same report, each
// line of which is one write. peer.py measures it beside gosync.
//
//	go run peer.go FILE        - is standard input
//	go run peer.go -dry FILE   makes each line and drops it, in the place of its write
//
// It takes every text that gosync reads. What gosync refuses it may take, or refuse without saying why. A misuse ends it as it
// ends gosync: with the report of the completed calls, Go's text on the error output, and status 2. For that a mutex notes
// whether it is held, which takes some nanoseconds a call: Go's own end of such a program leaves no report. Workers that wait
// for one another for ever are ended by Go's runtime, without a report.
package main

import (
	"bytes"
	"fmt"
	"io"
	"os"
	"runtime"
	"slices"
	"strconv"
	"strings"
	"sync"
	"sync/atomic"
)

// A word is the first one of a call.
type word uint8

const (
	load word = iota + 1
	store
	swap
	add
	and
	or
	compareAndSwap
	ifEqual
	loadOrStore
	loadAndDelete
	deleteKey
	compareAndDelete
	clearAll
	rangeAll
	lock
	unlock
	tryLock
	rLock
	rUnlock
	tryRLock
	wait
	signal
	broadcast
	waitFor
	done
	start
	do
	callFunc
	value
	put
	get
	sweep
)

// wordOf is the word that these bytes spell, or 0. The compiler makes no string for a switch.
func wordOf(spelled []byte) word {
	switch string(spelled) {
	case "load":
		return load
	case "store":
		return store
	case "swap":
		return swap
	case "add":
		return add
	case "and":
		return and
	case "or":
		return or
	case "cas":
		return compareAndSwap
	case "ifeq":
		return ifEqual
	case "los":
		return loadOrStore
	case "lad":
		return loadAndDelete
	case "delete":
		return deleteKey
	case "cad":
		return compareAndDelete
	case "clear":
		return clearAll
	case "range":
		return rangeAll
	case "lock":
		return lock
	case "unlock":
		return unlock
	case "trylock":
		return tryLock
	case "rlock":
		return rLock
	case "runlock":
		return rUnlock
	case "tryrlock":
		return tryRLock
	case "wait":
		return wait
	case "signal":
		return signal
	case "broadcast":
		return broadcast
	case "waitfor":
		return waitFor
	case "done":
		return done
	case "go":
		return start
	case "do":
		return do
	case "call":
		return callFunc
	case "value":
		return value
	case "put":
		return put
	case "get":
		return get
	case "sweep":
		return sweep
	}
	return 0
}

// A call of a script. Numbers are kept as 64 bits, those below 0 too.
type call struct {
	on            object
	text          []byte // its words, with one space between
	key           any    // a map's key: a string, made an interface value when it is first read
	first, second uint64
	of            atomicObject // of a waitfor
	word          word
}

// An object makes the calls on it.
type object interface {
	call(w *worker, c *call) reply
}

// A form is how a reply is spelled.
type form uint8

const (
	ok       form = iota
	flag          // true or false
	signed        // a number
	unsigned      // a number
	found         // a value and whether it was there
	absent        // - false
	ran           // ran and the sum
	finished      // done
	failed        // err and the code
	wasPut        // an item that was put
	isNew         // 0 new
	pairs         // a range's pairs, at this place of the worker's list
)

type reply struct {
	number uint64
	form   form
	is     bool
}

type pair struct {
	key   string
	value uint64
}

// Map

type mapObject struct {
	sync.Map
	name string
}

func valueAt(v any, is bool) reply {
	if v == nil {
		return reply{form: absent}
	}
	return reply{form: found, number: v.(uint64), is: is}
}

func (m *mapObject) call(w *worker, c *call) reply {
	switch c.word {
	case load:
		return valueAt(m.Load(c.key))
	case store:
		m.Store(c.key, c.first)
	case loadOrStore:
		return valueAt(m.LoadOrStore(c.key, c.first))
	case loadAndDelete:
		return valueAt(m.LoadAndDelete(c.key))
	case deleteKey:
		m.Delete(c.key)
	case swap:
		return valueAt(m.Swap(c.key, c.first))
	case compareAndSwap:
		return reply{form: flag, is: m.CompareAndSwap(c.key, c.first, c.second)}
	case compareAndDelete:
		return reply{form: flag, is: m.CompareAndDelete(c.key, c.first)}
	case clearAll:
		m.Clear()
	case rangeAll:
		w.pairs = append(w.pairs, m.sorted())
		return reply{form: pairs, number: uint64(len(w.pairs) - 1)}
	}
	return reply{}
}

// sorted is what Range shows, in order of the keys.
func (m *mapObject) sorted() []pair {
	var all []pair
	m.Range(func(key, value any) bool {
		all = append(all, pair{key.(string), value.(uint64)})
		return true
	})
	slices.SortFunc(all, func(a, b pair) int { return strings.Compare(a.key, b.key) })
	return all
}

// Atomics

// An atomicObject is an atomic of whatever type.
type atomicObject interface {
	object
	holds(number uint64) bool
	now() reply
}

// A word that changes in single steps, as Go's types of integers are.
type cell[T any] interface {
	Load() T
	Store(T)
	Swap(T) T
	CompareAndSwap(old, new T) bool
	Add(T) T
	And(T) T
	Or(T) T
}

type integer[T int32 | int64 | uint32 | uint64, C cell[T]] struct {
	cell C
	form form
}

func (a *integer[T, C]) reply(number T) reply { return reply{form: a.form, number: uint64(number)} }

func (a *integer[T, C]) now() reply { return a.reply(a.cell.Load()) }

func (a *integer[T, C]) holds(number uint64) bool { return a.cell.Load() == T(number) }

func (a *integer[T, C]) call(_ *worker, c *call) reply {
	switch c.word {
	case load:
		return a.now()
	case store:
		a.cell.Store(T(c.first))
	case swap:
		return a.reply(a.cell.Swap(T(c.first)))
	case add:
		return a.reply(a.cell.Add(T(c.first)))
	case and:
		return a.reply(a.cell.And(T(c.first)))
	case or:
		return a.reply(a.cell.Or(T(c.first)))
	case compareAndSwap:
		return reply{form: flag, is: a.cell.CompareAndSwap(T(c.first), T(c.second))}
	case ifEqual:
		return reply{form: flag, is: a.holds(c.first)}
	}
	return reply{}
}

type boolean struct{ atomic.Bool }

func (a *boolean) now() reply { return reply{form: flag, is: a.Load()} }

func (a *boolean) holds(number uint64) bool { return a.Load() == (number == 1) }

func (a *boolean) call(_ *worker, c *call) reply {
	switch c.word {
	case load:
		return a.now()
	case store:
		a.Store(c.first == 1)
	case swap:
		return reply{form: flag, is: a.Swap(c.first == 1)}
	case compareAndSwap:
		return reply{form: flag, is: a.CompareAndSwap(c.first == 1, c.second == 1)}
	case ifEqual:
		return reply{form: flag, is: a.holds(c.first)}
	}
	return reply{}
}

// Mutex, RWMutex

// A misuse is the text by which Go would end the program.
type misuse string

type mutex struct {
	sync.Mutex
	held atomic.Bool
}

func (m *mutex) Lock() {
	m.Mutex.Lock()
	m.held.Store(true)
}

func (m *mutex) Unlock() {
	if !m.held.CompareAndSwap(true, false) {
		panic(misuse("fatal error: sync: unlock of unlocked mutex"))
	}
	m.Mutex.Unlock()
}

func (m *mutex) TryLock() bool {
	is := m.Mutex.TryLock()
	if is {
		m.held.Store(true)
	}
	return is
}

func (m *mutex) call(_ *worker, c *call) reply {
	switch c.word {
	case lock:
		m.Lock()
	case unlock:
		m.Unlock()
	case tryLock:
		return reply{form: flag, is: m.TryLock()}
	}
	return reply{}
}

type rwMutex struct {
	sync.RWMutex
	held    atomic.Bool
	readers atomic.Int32
}

func (m *rwMutex) Unlock() {
	if !m.held.CompareAndSwap(true, false) {
		panic(misuse("fatal error: sync: Unlock of unlocked RWMutex"))
	}
	m.RWMutex.Unlock()
}

func (m *rwMutex) RUnlock() {
	if m.readers.Add(-1) < 0 {
		panic(misuse("fatal error: sync: RUnlock of unlocked RWMutex"))
	}
	m.RWMutex.RUnlock()
}

func (m *rwMutex) call(_ *worker, c *call) reply {
	switch c.word {
	case lock:
		m.Lock()
		m.held.Store(true)
	case unlock:
		m.Unlock()
	case tryLock:
		is := m.TryLock()
		if is {
			m.held.Store(true)
		}
		return reply{form: flag, is: is}
	case rLock:
		m.RLock()
		m.readers.Add(1)
	case rUnlock:
		m.RUnlock()
	case tryRLock:
		is := m.TryRLock()
		if is {
			m.readers.Add(1)
		}
		return reply{form: flag, is: is}
	}
	return reply{}
}

// Cond, WaitGroup, Once, OnceFunc, OnceValue, Pool

type cond struct{ *sync.Cond }

func (o cond) call(_ *worker, c *call) reply {
	switch c.word {
	case wait:
		o.Wait()
	case signal:
		o.Signal()
	case broadcast:
		o.Broadcast()
	case waitFor:
		is := c.of.holds(c.first)
		for tries := c.second; !is && tries > 0; tries-- {
			o.Wait()
			is = c.of.holds(c.first)
		}
		return reply{form: flag, is: is}
	}
	return reply{}
}

type group struct{ sync.WaitGroup }

func (g *group) call(w *worker, c *call) reply {
	switch c.word {
	case add:
		g.Add(int(c.first))
	case done:
		g.Done()
	case wait:
		g.Wait()
	case start:
		g.Add(1)
		started := w.run.workers[c.first]
		started.group = g
		w.run.live.Add(1)
		go started.work()
	}
	return reply{}
}

type once struct {
	sync.Once
	to     *atomic.Int64
	amount int64
}

func (o *once) call(_ *worker, _ *call) reply {
	answer := reply{form: finished}
	o.Do(func() { answer = reply{form: ran, number: uint64(o.to.Add(o.amount))} })
	return answer
}

// A failure is what a OnceFunc's function panics with.
type failure uint64

type onceFunc func()

func (f onceFunc) call(_ *worker, _ *call) (answer reply) {
	defer func() {
		if found := recover(); found != nil {
			answer = reply{form: failed, number: uint64(found.(failure))}
		}
	}()
	f()
	return reply{}
}

type onceValue func() uint64

func (f onceValue) call(_ *worker, _ *call) reply { return reply{form: unsigned, number: f()} }

type pool struct{ sync.Pool }

func (p *pool) call(_ *worker, c *call) reply {
	switch c.word {
	case put:
		p.Put(c.first)
	case get:
		if item := p.Get(); item != nil {
			return reply{form: wasPut, number: item.(uint64)}
		}
		return reply{form: isNew}
	case sweep:
		// What empties Go's pools is the garbage collector.
		runtime.GC()
	}
	return reply{}
}

// The run

type completed struct {
	reply reply
	at    int32 // the call's place in the script
}

type worker struct {
	run     *run
	calls   []call
	made    []completed // as many are completed as count says
	count   atomic.Int32
	pairs   [][]pair
	dormant bool
	group   *group // under which it was started
}

type run struct {
	workers []*worker
	live    atomic.Int32
	stopped atomic.Bool
	ended   chan string // how the run ended: Go's text of a misuse, or nothing
}

func (w *worker) work() {
	defer w.stopOnMisuse()
	for at := 0; at < len(w.calls); at++ {
		if w.run.stopped.Load() {
			return
		}
		c := &w.calls[at]
		answer := c.on.call(w, c)
		count := w.count.Load()
		w.made[count] = completed{answer, int32(at)}
		w.count.Store(count + 1)
		if c.word == ifEqual && !answer.is {
			at += int(c.second)
		}
	}
	if w.group != nil {
		w.group.Done()
	}
	if w.run.live.Add(-1) == 0 {
		w.run.ended <- ""
	}
}

// stopOnMisuse ends the run where the worker's call panicked by a misuse: one that is found here, or one of a WaitGroup.
func (w *worker) stopOnMisuse() {
	var text string
	switch found := recover().(type) {
	case nil:
		return
	case misuse:
		text = string(found)
	case string:
		text = "panic: " + found
	default:
		panic(found)
	}
	if w.run.stopped.CompareAndSwap(false, true) {
		w.run.ended <- text
	}
}

// start lets all workers go that wait for nobody, and waits for the end.
func (r *run) start() string {
	var live []*worker
	for _, w := range r.workers {
		w.made = make([]completed, len(w.calls))
		if !w.dormant {
			live = append(live, w)
		}
	}
	if len(live) == 0 {
		return ""
	}
	r.live.Store(int32(len(live)))
	for _, w := range live {
		go w.work()
	}
	return <-r.ended
}

// The text

type text struct {
	run     *run
	objects map[string]object
	keys    map[string]any
	atomics []string // in order of declaration, as maps
	maps    []string
}

// numberOf is a number's 64 bits, or those of a truth value.
func numberOf(spelled []byte) uint64 {
	switch {
	case string(spelled) == "true":
		return 1
	case string(spelled) == "false":
		return 0
	case spelled[0] == '-':
		return -numberOf(spelled[1:])
	}
	var number uint64
	for _, digit := range spelled {
		if digit < '0' || '9' < digit {
			panic("no number")
		}
		number = 10*number + uint64(digit-'0')
	}
	return number
}

func (t *text) keyOf(spelled []byte) any {
	key, is := t.keys[string(spelled)]
	if !is {
		key = string(spelled)
		t.keys[key.(string)] = key
	}
	return key
}

// declared is the object that a line declares, or nil.
func (t *text) declared(words [][]byte) object {
	switch string(words[0]) {
	case "map":
		return &mapObject{name: string(words[1])}
	case "int32":
		return &integer[int32, *atomic.Int32]{new(atomic.Int32), signed}
	case "int64":
		return &integer[int64, *atomic.Int64]{new(atomic.Int64), signed}
	case "uint32":
		return &integer[uint32, *atomic.Uint32]{new(atomic.Uint32), unsigned}
	case "uint64":
		return &integer[uint64, *atomic.Uint64]{new(atomic.Uint64), unsigned}
	case "bool":
		return new(boolean)
	case "mutex":
		return new(mutex)
	case "rwmutex":
		return new(rwMutex)
	case "cond":
		return cond{sync.NewCond(t.objects[string(words[2])].(*mutex))}
	case "waitgroup":
		g := new(group)
		g.Add(int(numberOf(words[2])))
		return g
	case "once":
		to := t.objects[string(words[2])].(*integer[int64, *atomic.Int64])
		return &once{to: to.cell, amount: int64(numberOf(words[3]))}
	case "oncefunc":
		code := failure(numberOf(words[2]))
		return onceFunc(sync.OnceFunc(func() {
			if code != 0 {
				panic(code)
			}
		}))
	case "oncevalue":
		result := numberOf(words[2])
		return onceValue(sync.OnceValue(func() uint64 { return result }))
	case "pool":
		return new(pool)
	}
	return nil
}

// callOf is the call of these words, which stand in the line.
func (t *text) callOf(line []byte, words [][]byte) call {
	c := call{word: wordOf(words[0]), on: t.objects[string(words[1])], text: line}
	if c.word == 0 || c.on == nil {
		panic("no call")
	}
	numbers := words[2:]
	if _, is := c.on.(*mapObject); is && len(numbers) > 0 {
		c.key, numbers = t.keyOf(numbers[0]), numbers[1:]
	}
	if c.word == waitFor {
		c.of, numbers = t.objects[string(numbers[0])].(atomicObject), numbers[1:]
	}
	if len(numbers) > 0 {
		c.first = numberOf(numbers[0])
	}
	if len(numbers) > 1 {
		c.second = numberOf(numbers[1])
	}
	return c
}

// split gives the words of a line, and the line with one space between two, in the space of the words before.
func split(line []byte, words [][]byte) ([]byte, [][]byte) {
	words = words[:0]
	length := -1
	for rest := line; len(rest) > 0; {
		end := bytes.IndexByte(rest, ' ')
		if end < 0 {
			end = len(rest)
		}
		if end > 0 {
			words = append(words, rest[:end])
			length += 1 + end
		}
		rest = rest[min(end+1, len(rest)):]
	}
	if length >= 0 && length < len(line) {
		line = bytes.Join(words, []byte{' '})
	}
	return line, words
}

// read makes a run of a text.
func read(source []byte) *text {
	t := &text{run: &run{ended: make(chan string, 1)}, objects: map[string]object{}, keys: map[string]any{}}
	var named *worker
	var words [][]byte
	for rest := source; len(rest) > 0; {
		var line []byte
		line, rest, _ = bytes.Cut(rest, []byte{'\n'})
		line, words = split(line, words)
		if len(words) == 0 || words[0][0] == '#' {
			continue
		}
		switch string(words[0]) {
		case "workers":
			for range numberOf(words[1]) {
				t.run.workers = append(t.run.workers, &worker{run: t.run})
			}
			continue
		case "worker":
			named = t.run.workers[numberOf(words[1])]
			continue
		case "dormant":
			t.run.workers[numberOf(words[1])].dormant = true
			continue
		case "schedule":
			continue
		}
		if o := t.declared(words); o != nil {
			name := string(words[1])
			t.objects[name] = o
			switch o.(type) {
			case *mapObject:
				t.maps = append(t.maps, name)
			case atomicObject:
				t.atomics = append(t.atomics, name)
			}
			continue
		}
		named.calls = append(named.calls, t.callOf(line, words))
	}
	return t
}

// The report

func appendReply(line []byte, w *worker, r reply) []byte {
	switch r.form {
	case ok:
		return append(line, "ok"...)
	case flag:
		return strconv.AppendBool(line, r.is)
	case signed:
		return strconv.AppendInt(line, int64(r.number), 10)
	case unsigned:
		return strconv.AppendUint(line, r.number, 10)
	case found:
		line = strconv.AppendUint(line, r.number, 10)
		return strconv.AppendBool(append(line, ' '), r.is)
	case absent:
		return append(line, "- false"...)
	case ran:
		return strconv.AppendInt(append(line, "ran "...), int64(r.number), 10)
	case finished:
		return append(line, "done"...)
	case failed:
		return strconv.AppendUint(append(line, "err "...), r.number, 10)
	case wasPut:
		return append(strconv.AppendUint(line, r.number, 10), " put"...)
	case isNew:
		return append(line, "0 new"...)
	}
	shown := w.pairs[r.number]
	if len(shown) == 0 {
		return append(line, '-')
	}
	for place, p := range shown {
		if place > 0 {
			line = append(line, ' ')
		}
		line = strconv.AppendUint(append(append(line, p.key...), '='), p.value, 10)
	}
	return line
}

// write writes the report of a run that ended so, each line by one write.
func (t *text) write(out io.Writer, misused bool) error {
	var line []byte
	for number, w := range t.run.workers {
		for _, made := range w.made[:w.count.Load()] {
			line = strconv.AppendInt(line[:0], int64(number), 10)
			line = strconv.AppendInt(append(line, '.'), int64(made.at), 10)
			line = append(append(append(line, ' '), w.calls[made.at].text...), " -> "...)
			line = append(appendReply(line, w, made.reply), '\n')
			if _, err := out.Write(line); err != nil {
				return err
			}
		}
	}
	if misused {
		return nil
	}
	for _, name := range t.atomics {
		line = append(append(append(line[:0], "end "...), name...), ' ')
		line = append(appendReply(line, nil, t.objects[name].(atomicObject).now()), '\n')
		if _, err := out.Write(line); err != nil {
			return err
		}
	}
	for _, name := range t.maps {
		for _, p := range t.objects[name].(*mapObject).sorted() {
			line = append(append(append(line[:0], "end "...), name...), ' ')
			line = append(strconv.AppendUint(append(append(line, p.key...), ' '), p.value, 10), '\n')
			if _, err := out.Write(line); err != nil {
				return err
			}
		}
	}
	return nil
}

func end(status int, why any) {
	fmt.Fprintln(os.Stderr, why)
	os.Exit(status)
}

func main() {
	words := os.Args[1:]
	var out io.Writer = os.Stdout
	if len(words) > 0 && words[0] == "-dry" {
		words, out = words[1:], io.Discard
	}
	if len(words) != 1 {
		end(5, "usage: peer [-dry] FILE")
	}
	var source []byte
	var err error
	if words[0] == "-" {
		source, err = io.ReadAll(os.Stdin)
	} else {
		source, err = os.ReadFile(words[0])
	}
	if err != nil {
		end(3, err)
	}
	t := readOrEnd(source)
	ended := t.run.start()
	if err := t.write(out, ended != ""); err != nil {
		end(3, err)
	}
	if ended != "" {
		end(2, ended)
	}
}

// readOrEnd reads a text, or ends the program where a line isn't one of a workload.
func readOrEnd(source []byte) *text {
	defer func() {
		if found := recover(); found != nil {
			end(1, "peer: this text isn't read")
		}
	}()
	return read(source)
}
