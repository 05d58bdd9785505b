// Measures a pair of calls of Go's sync types and of x/sync's, and a call of sync.Map and atomic.Int64: nanoseconds for each
// thread.
// GO111MODULE=off GOPATH=/usr/share/gocode go run measure.go ROUNDS
package main

import (
	"context"
	"fmt"
	"os"
	"strconv"
	"sync"
	"sync/atomic"
	"time"

	"golang.org/x/sync/semaphore"
	"golang.org/x/sync/singleflight"
)

// apart makes an object that shares no cache line with another one.
func apart[T any]() *T {
	return &new(struct {
		object T
		rest   [128]byte
	}).object
}

// A caller makes its pair of calls so many times. The callers of one object count from 0.
type caller func(number, rounds int)

// run has so many callers make their pairs, each in a goroutine of its own, on the object that belongs to its number.
func run(name string, rounds, callers int, object func(number int) caller) {
	var ready, ended sync.WaitGroup
	start := make(chan struct{})
	for number := 0; number < callers; number++ {
		number, call := number, object(number)
		ready.Add(1)
		ended.Add(1)
		go func() {
			ready.Done()
			<-start
			call(number, rounds)
			ended.Done()
		}()
	}
	ready.Wait()
	begin := time.Now()
	close(start)
	ended.Wait()
	fmt.Printf("%s %.1f\n", name, float64(time.Since(begin).Nanoseconds())/float64(rounds))
}

// each measures one caller, two and four on objects of their own, and two, four and eight on one.
func each(name string, rounds int, object func() caller) {
	own := func(callers int) {
		run(fmt.Sprintf("%s %s-own", name, words[callers]), rounds, callers, func(int) caller {
			// On an object of its own each caller is number 0.
			call := object()
			return func(_, rounds int) { call(0, rounds) }
		})
	}
	shared := func(callers int) {
		one := object()
		run(fmt.Sprintf("%s %s-shared", name, words[callers]), rounds, callers, func(int) caller { return one })
	}
	run(name+" one", rounds, 1, func(int) caller { return object() })
	own(2)
	own(4)
	shared(2)
	shared(4)
	shared(8)
}

var words = map[int]string{2: "two", 4: "four", 8: "eight"}

// keysBefore is how many keys most maps have before the first call, ownKeys how many each caller stores and deletes, and
// wideKeys how many are stored and deleted where they are many.
const (
	keysBefore = 512
	ownKeys    = 128
	wideKeys   = 4096
)

// The keys, and a value, as what a sync.Map takes. They are made once, before the first call.
var (
	keys      = makeKeys()
	value any = uint64(1)
)

func makeKeys() []any {
	keys := make([]any, wideKeys)
	for i := range keys {
		keys[i] = uint32(i)
	}
	return keys
}

func ownKey(number, round int) any {
	return keys[ownKeys*(number%4)+round%ownKeys]
}

// eachMap measures calls on a map that has so many keys before the first one.
func eachMap(name string, rounds, before int, calls func(m *sync.Map, number, rounds int)) {
	each(name, rounds, func() caller {
		m := apart[sync.Map]()
		for _, key := range keys[:before] {
			m.Store(key, value)
		}
		return func(number, rounds int) { calls(m, number, rounds) }
	})
}

func load(m *sync.Map, round int) {
	if _, found := m.Load(keys[round%keysBefore]); !found {
		panic("a key is gone")
	}
}

func maps(rounds int) {
	eachMap("load", rounds, keysBefore, func(m *sync.Map, _, rounds int) {
		for round := 0; round < rounds; round++ {
			load(m, round)
		}
	})
	eachMap("store", rounds, keysBefore, func(m *sync.Map, number, rounds int) {
		for round := 0; round < rounds; round++ {
			m.Store(ownKey(number, round), value)
		}
	})
	eachMap("churn", rounds, keysBefore, func(m *sync.Map, number, rounds int) {
		for round := 0; round < rounds; round++ {
			key := ownKey(number, round)
			m.Store(key, value)
			m.Delete(key)
		}
	})
	eachMap("wide", rounds, 0, func(m *sync.Map, number, rounds int) {
		for round := 0; round < rounds; round++ {
			key := keys[(512*number+round)%wideKeys]
			if round/wideKeys%2 == 0 {
				m.Store(key, value)
			} else {
				m.Delete(key)
			}
		}
	})
	eachMap("mix", rounds, keysBefore, func(m *sync.Map, number, rounds int) {
		for round := 0; round < rounds; round++ {
			if round%10 < 9 {
				load(m, round)
			} else {
				m.Store(ownKey(number, round), value)
			}
		}
	})
	each("add", rounds, func() caller {
		number := apart[atomic.Int64]()
		return func(_, rounds int) {
			for i := 0; i < rounds; i++ {
				number.Add(1)
			}
		}
	})
}

// The keys of flights: one for each caller.
var flightKeys = [8]string{"0", "1", "2", "3", "4", "5", "6", "7"}

func sema(name string, rounds int, size int64) {
	each(name, rounds, func() caller {
		s := apart[semaphore.Weighted]()
		*s = *semaphore.NewWeighted(size)
		return func(_, rounds int) {
			for i := 0; i < rounds; i++ {
				s.Acquire(context.Background(), 1)
				s.Release(1)
			}
		}
	})
}

// work is what a flight does for so long that others join it.
func work() (any, error) {
	begin := time.Now()
	for time.Since(begin) < 10*time.Microsecond {
	}
	return int64(1), nil
}

func flight(name string, rounds int, key func(number int) string, work func() (any, error)) {
	each(name, rounds, func() caller {
		g := apart[singleflight.Group]()
		return func(number, rounds int) {
			key := key(number)
			for i := 0; i < rounds; i++ {
				g.Do(key, work)
			}
		}
	})
}

func main() {
	rounds, err := strconv.Atoi(os.Args[1])
	if err != nil {
		panic(err)
	}
	each("mutex", rounds, func() caller {
		m := apart[sync.Mutex]()
		return func(_, rounds int) {
			for i := 0; i < rounds; i++ {
				m.Lock()
				m.Unlock()
			}
		}
	})
	each("read", rounds, func() caller {
		m := apart[sync.RWMutex]()
		return func(_, rounds int) {
			for i := 0; i < rounds; i++ {
				m.RLock()
				m.RUnlock()
			}
		}
	})
	each("write", rounds, func() caller {
		m := apart[sync.RWMutex]()
		return func(_, rounds int) {
			for i := 0; i < rounds; i++ {
				m.Lock()
				m.Unlock()
			}
		}
	})
	each("group", rounds, func() caller {
		g := apart[sync.WaitGroup]()
		return func(_, rounds int) {
			for i := 0; i < rounds; i++ {
				g.Add(1)
				g.Done()
			}
		}
	})
	each("once", rounds, func() caller {
		o := apart[sync.Once]()
		return func(_, rounds int) {
			for i := 0; i < rounds; i++ {
				o.Do(func() {})
			}
		}
	})
	each("pool", rounds, func() caller {
		p := apart[sync.Pool]()
		p.New = func() any { return new(uint64) }
		return func(_, rounds int) {
			item := any(new(uint64))
			for i := 0; i < rounds; i++ {
				p.Put(item)
				item = p.Get()
			}
		}
	})
	sema("sema", rounds, 64)
	sema("sema-one", rounds, 1)
	flight("flight", rounds, func(number int) string { return flightKeys[number] },
		func() (any, error) { return int64(1), nil })
	flight("flight-joined", rounds/20, func(int) string { return flightKeys[0] }, work)
	maps(rounds / 2)
}
