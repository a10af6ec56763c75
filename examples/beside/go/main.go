// An adapter in Go: scenarios as goroutines, channels and mutexes, over a virtual clock.
//
//	go build -o adapter . && ./gvr beside FILE --adapter ./adapter
//
// spawn is `go`, join and get receive from a channel that is closed at the end, an event is a channel that set closes,
// a semaphore is a buffered channel of units, a fifo queue a buffered channel of values, an rlock a sync.Mutex, `within`
// a select with a timer's channel, sleep 0 is runtime.Gosched. Go has no kill and no faults: what needs one is
// unsupported.
package main

import (
	"bufio"
	"encoding/json"
	"fmt"
	"os"
	"runtime"
	"sync"
)

const (
	mostMoves = 20000
	quiet     = 20      // so often in a row the clock finds nobody awake before it moves
	unbounded = 1 << 16 // places of a channel that has no bound
	nobody    = -1
)

type statement struct {
	Do, Into, Name, F, Obj string
	Line, Ms               int
	E                      []any
	Args                   [][]any
	Wait                   []any
	Body, Other            []statement
}

type function struct {
	Name   string
	Params []string
	Body   []statement
}

type object struct {
	Kind, Name, Queue string
	N                 *int
}

type tree struct {
	Objects   []object
	Functions []function
}

type (
	event  map[string]any
	handle int // a greenlet
	names  map[string]any
	unit   struct{}
)

// unsupported is what is thrown where Go has no counterpart.
type unsupported string

// timer is a deadline, and the channel that it sends on.
type timer struct {
	at, number int
	fired      chan unit
}

// task is one goroutine of the scenario.
type task struct {
	ended chan unit
	value any
}

// run is one scenario. All of it but `finished` is read and written under `lock`.
type run struct {
	lock      sync.Mutex
	functions map[string]function
	objects   map[string]any
	owners    map[*sync.Mutex]int
	tasks     []*task
	timers    []timer
	events    []event
	now       int
	made      int // timers
	moves     int // statements, and goings on
	awake     int // goroutines that do not wait
	over      bool
	finished  chan unit
}

func main() {
	runtime.GOMAXPROCS(1)
	in := bufio.NewReaderSize(os.Stdin, 1<<20)
	out := bufio.NewWriter(os.Stdout)
	encoder := json.NewEncoder(out)
	for {
		line, err := in.ReadBytes('\n')
		if err != nil {
			return
		}
		var read tree
		if err := json.Unmarshal(line, &read); err != nil {
			fmt.Fprintln(os.Stderr, err)
			os.Exit(1)
		}
		for _, each := range append(runOf(read), event{"ev": "over"}) {
			encoder.Encode(each)
		}
		out.Flush()
	}
}

// runOf gives the events of a scenario.
func runOf(read tree) []event {
	r := &run{functions: map[string]function{}, objects: map[string]any{}, owners: map[*sync.Mutex]int{}, finished: make(chan unit)}
	for _, each := range read.Functions {
		r.functions[each.Name] = each
	}
	for _, each := range read.Objects {
		r.objects[each.Name] = made(each)
	}
	r.spawn(r.functions["main"], nil)
	go r.clock()
	<-r.finished
	r.lock.Lock()
	defer r.lock.Unlock()
	return r.events
}

// made makes an object; nil if Go has none of its kind.
func made(o object) any {
	switch {
	case o.Kind == "event":
		return make(chan unit)
	case o.Kind == "sem":
		units := make(chan unit, unbounded)
		for i := 0; o.N != nil && i < *o.N; i++ {
			units <- unit{}
		}
		return units
	case o.Kind == "rlock":
		return &sync.Mutex{}
	case o.Kind == "queue" && o.Queue == "fifo":
		if o.N == nil {
			return make(chan any, unbounded)
		}
		return make(chan any, *o.N)
	}
	return nil
}

// ---------------------------------------------------------------- the clock

// clock moves when nobody is awake for some turns: to the next deadline, or to the end of the run.
func (r *run) clock() {
	seen, still := -1, 0
	for {
		runtime.Gosched()
		r.lock.Lock()
		if r.over {
			r.lock.Unlock()
			return
		}
		if r.awake > 0 || r.moves != seen {
			seen, still = r.moves, 0
		} else if still++; still > quiet {
			still = 0
			r.jump()
		}
		r.lock.Unlock()
	}
}

// jump goes to the next deadline, and fires all timers of that moment in the order of their making.
func (r *run) jump() {
	if len(r.timers) == 0 {
		r.stop("hang")
		return
	}
	r.now = r.timers[0].at
	for _, each := range r.timers {
		if each.at < r.now {
			r.now = each.at
		}
	}
	later := []timer{}
	for _, each := range r.timers {
		if each.at == r.now {
			each.fired <- unit{}
		} else {
			later = append(later, each)
		}
	}
	r.timers = later
}

// after gives a timer.
func (r *run) after(ms int) timer {
	r.lock.Lock()
	defer r.lock.Unlock()
	r.made++
	t := timer{r.now + ms, r.made, make(chan unit, 1)}
	r.timers = append(r.timers, t)
	return t
}

// forget takes a timer away.
func (r *run) forget(t timer) {
	r.lock.Lock()
	defer r.lock.Unlock()
	for i, each := range r.timers {
		if each.number == t.number {
			r.timers = append(r.timers[:i:i], r.timers[i+1:]...)
			return
		}
	}
}

// ---------------------------------------------------------------- events

// tell writes an event, unless the run is over. Under the lock.
func (r *run) tell(e event) {
	if !r.over {
		r.events = append(r.events, e)
	}
}

// stop ends the run. Under the lock.
func (r *run) stop(out string) {
	if !r.over {
		r.tell(event{"ev": "stop", "out": out})
		r.over = true
		close(r.finished)
	}
}

func (r *run) told(e event) {
	r.lock.Lock()
	defer r.lock.Unlock()
	r.tell(e)
}

// slept counts one that waits (-1), or goes on (1).
func (r *run) slept(change int) {
	r.lock.Lock()
	defer r.lock.Unlock()
	r.awake += change
	r.moves++
}

// waits runs what blocks the goroutine g, and tells that it goes on.
func (r *run) waits(g int, st statement, block func()) {
	r.slept(-1)
	block()
	r.slept(1)
	r.told(event{"ev": "go", "g": g, "line": st.Line})
}

// ---------------------------------------------------------------- bodies

// spawn makes a goroutine.
func (r *run) spawn(f function, arguments []any) handle {
	r.lock.Lock()
	g := len(r.tasks)
	r.tasks = append(r.tasks, &task{ended: make(chan unit)})
	r.awake++
	r.lock.Unlock()
	go r.body(g, f, arguments)
	return handle(g)
}

// body is one goroutine.
func (r *run) body(g int, f function, arguments []any) {
	defer func() {
		if what, is := recover().(unsupported); is {
			r.lock.Lock()
			defer r.lock.Unlock()
			r.tell(event{"ev": "unsupported", "what": string(what)})
			r.stop("unsupported")
		}
	}()
	r.told(event{"ev": "start", "g": g, "f": f.Name})
	local := names{}
	for i, name := range f.Params {
		local[name] = arguments[i]
	}
	value, _ := r.block(g, f.Body, local)
	r.lock.Lock()
	r.tasks[g].value = value
	r.awake--
	r.moves++
	r.tell(event{"ev": "end", "g": g, "out": "value " + text(value)})
	if g == 0 {
		r.stop("value " + text(value))
	}
	r.lock.Unlock()
	close(r.tasks[g].ended)
}

// move counts a statement; the goroutine ends if the run is over.
func (r *run) move() {
	r.lock.Lock()
	r.moves++
	if r.moves > mostMoves {
		r.stop("no-moves")
	}
	over := r.over
	r.lock.Unlock()
	if over {
		runtime.Goexit()
	}
}

// block runs statements; the second is whether one of them was a return.
func (r *run) block(g int, body []statement, local names) (any, bool) {
	for _, st := range body {
		r.move()
		switch st.Do {
		case "return":
			return r.eval(g, st.E, local), true
		case "while":
			for truth(r.eval(g, st.E, local)) {
				if value, is := r.block(g, st.Body, local); is {
					return value, true
				}
				r.move()
			}
		case "if":
			chosen := st.Other
			if truth(r.eval(g, st.E, local)) {
				chosen = st.Body
			}
			if value, is := r.block(g, chosen, local); is {
				return value, true
			}
		case "let":
			local[st.Name] = r.eval(g, st.E, local)
		case "print":
			r.told(event{"ev": "print", "g": g, "v": text(r.eval(g, st.E, local)), "line": st.Line})
		default:
			if value := r.call(g, st, local); st.Into != "" {
				local[st.Into] = value
			}
		}
	}
	return nil, false
}

// call runs a statement that calls the runtime; what it gives.
func (r *run) call(g int, st statement, local names) any {
	switch st.Do {
	case "spawn":
		arguments := []any{}
		for _, e := range st.Args {
			arguments = append(arguments, r.eval(g, e, local))
		}
		return r.spawn(r.functions[st.F], arguments)
	case "sleep":
		if st.Ms == 0 {
			r.waits(g, st, runtime.Gosched)
		} else {
			t := r.after(st.Ms)
			r.waits(g, st, func() { <-t.fired })
		}
		return nil
	case "join", "get":
		return r.ended(g, st, r.taskOf(g, r.eval(g, st.E, local)))
	}
	switch o := r.objects[st.Obj].(type) {
	case chan unit:
		return r.units(g, st, o)
	case chan any:
		return r.queue(g, st, o, local)
	case *sync.Mutex:
		return r.mutex(g, st, o)
	}
	panic(unsupported(st.Do))
}

// receive takes from a channel, for at most `within`; whether it got something.
func receive[T any](r *run, g int, st statement, from <-chan T) (got T, is bool) {
	select {
	case got = <-from:
		return got, true
	default:
	}
	switch {
	case st.Wait == nil:
		r.waits(g, st, func() { got, is = <-from, true })
	case st.Wait[0] == "within":
		t := r.after(int(st.Wait[1].(float64)))
		r.waits(g, st, func() {
			select {
			case got = <-from:
				is = true
			case <-t.fired:
			}
		})
		r.forget(t)
	}
	return got, is
}

func (r *run) ended(g int, st statement, t *task) any {
	_, is := receive(r, g, st, t.ended)
	if st.Do == "join" {
		return nil
	}
	if !is {
		panic(unsupported("a Timeout"))
	}
	return t.value
}

// units is an event or a semaphore: a channel of units.
func (r *run) units(g int, st statement, o chan unit) any {
	switch st.Do {
	case "wait", "acquire":
		_, is := receive(r, g, st, o)
		return is
	case "release":
		o <- unit{}
		return nil
	case "set":
		select {
		case <-o:
		default:
			close(o)
		}
		return nil
	}
	panic(unsupported(st.Do))
}

func (r *run) queue(g int, st statement, o chan any, local names) any {
	switch st.Do {
	case "qget":
		if value, is := receive(r, g, st, o); is {
			return value
		}
		panic(unsupported("Empty"))
	case "qput":
		value := r.eval(g, st.E, local)
		select {
		case o <- value:
			return nil
		default:
		}
		if st.Wait != nil {
			panic(unsupported("qput that does not wait on"))
		}
		r.waits(g, st, func() { o <- value })
		return nil
	}
	panic(unsupported(st.Do))
}

func (r *run) mutex(g int, st statement, o *sync.Mutex) any {
	owner, is := r.ownerOf(o)
	if st.Do == "acquire" {
		if is && owner == g || st.Wait != nil && st.Wait[0] == "within" {
			panic(unsupported("a lock taken twice, or within"))
		}
		got := o.TryLock()
		if !got && st.Wait == nil {
			r.waits(g, st, o.Lock)
			got = true
		}
		if got {
			r.owns(o, g)
		}
		return got
	}
	if st.Do != "release" || !is || owner != g {
		panic(unsupported(st.Do))
	}
	r.owns(o, nobody)
	o.Unlock()
	return nil
}

func (r *run) ownerOf(o *sync.Mutex) (int, bool) {
	r.lock.Lock()
	defer r.lock.Unlock()
	owner, is := r.owners[o]
	return owner, is && owner != nobody
}

func (r *run) owns(o *sync.Mutex, g int) {
	r.lock.Lock()
	defer r.lock.Unlock()
	r.owners[o] = g
}

// taskOf gives the task of a handle, which is not that of g.
func (r *run) taskOf(g int, value any) *task {
	h, is := value.(handle)
	if !is || int(h) == g {
		panic(unsupported("a task and itself"))
	}
	r.lock.Lock()
	defer r.lock.Unlock()
	return r.tasks[h]
}

// ---------------------------------------------------------------- values and expressions

func truth(value any) bool {
	is, isTruth := value.(bool)
	if !isTruth {
		panic(unsupported("TypeError"))
	}
	return is
}

// text is a value as gvr writes it.
func text(value any) string {
	switch v := value.(type) {
	case nil:
		return "none"
	case handle:
		return fmt.Sprintf("g%d", int(v))
	}
	return fmt.Sprint(value)
}

// eval is the value of an expression in the goroutine g.
func (r *run) eval(g int, e []any, local names) any {
	switch form := e[0].(string); form {
	case "int":
		return int(e[1].(float64))
	case "name":
		return local[e[1].(string)]
	case "none":
		return nil
	case "true", "false":
		return form == "true"
	case "self":
		return handle(g)
	case "and", "or":
		if first := truth(r.eval(g, e[1].([]any), local)); first != (form == "and") {
			return first
		}
		return truth(r.eval(g, e[2].([]any), local))
	case "not":
		return !truth(r.eval(g, e[1].([]any), local))
	case "counter", "qsize", "isset":
		return r.asked(form, e[1].(string))
	case "+", "-", "*", "<", "<=", ">", ">=", "==", "!=":
		return counted(form, r.eval(g, e[1].([]any), local), r.eval(g, e[2].([]any), local))
	default:
		panic(unsupported(form))
	}
}

func (r *run) asked(form, name string) any {
	switch o := r.objects[name].(type) {
	case chan any:
		return len(o)
	case chan unit:
		if form == "counter" {
			return len(o)
		}
		select {
		case <-o:
			return true
		default:
			return false
		}
	}
	panic(unsupported(form))
}

// counted is an operation on two integers; of other values == and != alone.
func counted(form string, left, right any) any {
	if form == "==" || form == "!=" {
		return (left == right) == (form == "==")
	}
	a, isLeft := left.(int)
	b, isRight := right.(int)
	if !isLeft || !isRight || a > 1<<30 || b > 1<<30 || a < -1<<30 || b < -1<<30 {
		panic(unsupported("operands of " + form))
	}
	switch form {
	case "+":
		return a + b
	case "-":
		return a - b
	case "*":
		return a * b
	case "<":
		return a < b
	case "<=":
		return a <= b
	case ">":
		return a > b
	}
	return a >= b
}
