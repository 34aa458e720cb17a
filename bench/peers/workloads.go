// The programs of bench/workloads with Go's channels: a message that waits is what a channel holds, a chord is a select.
package main

import (
	"fmt"
	"os"
)

func uncontended() string {
	done := make(chan bool)
	for body := 0; body < 4; body++ {
		go func() {
			buffer := make(chan int, 1)
			for i := 0; i < 3900; {
				buffer <- i
				i = <-buffer + 1
			}
			done <- true
		}()
	}
	for body := 0; body < 4; body++ {
		<-done
	}
	return "done"
}

func buffer() string {
	buffer, sums := make(chan int, 2), make(chan int)
	for body := 0; body < 4; body++ {
		go func() {
			for i := 1; i <= 2000; i++ {
				buffer <- i
			}
		}()
		go func() {
			sum := 0
			for i := 0; i < 2000; i++ {
				sum += <-buffer
			}
			sums <- sum
		}()
	}
	sum := 0
	for body := 0; body < 4; body++ {
		sum += <-sums
	}
	return fmt.Sprint(sum)
}

// lock holds its state in one of two channels: free, or the number of readers; a writer takes it away.
type lock struct {
	free    chan bool
	readers chan int
}

func (l lock) read() {
	select {
	case <-l.free:
		l.readers <- 1
	case n := <-l.readers:
		l.readers <- n + 1
	}
}

func (l lock) doneReading() {
	if n := <-l.readers; n == 1 {
		l.free <- true
	} else {
		l.readers <- n - 1
	}
}

func locked() string {
	l, done := lock{make(chan bool, 1), make(chan int, 1)}, make(chan bool)
	l.free <- true
	for body := 0; body < 8; body++ {
		go func() {
			for i := 0; i < 250; i++ {
				for reads := 0; reads < 3; reads++ {
					l.read()
					l.doneReading()
				}
				<-l.free
				l.free <- true
			}
			done <- true
		}()
	}
	for body := 0; body < 8; body++ {
		<-done
	}
	return "done"
}

// count adds one to how many of a group are there; the last of a group wakes Santa.
func count(there chan int, group int, wake chan bool) {
	if n := <-there; n == group-1 {
		there <- 0
		wake <- true
	} else {
		there <- n + 1
	}
}

func santa() string {
	reindeer, elves := make(chan int, 1), make(chan int, 1)
	sleigh, meeting := make(chan bool, 600), make(chan bool, 1800)
	reindeer <- 0
	elves <- 0
	come := func(there chan int, group int, wake chan bool) {
		for i := 0; i < 600; i++ {
			count(there, group, wake)
		}
	}
	for body := 0; body < 9; body++ {
		go come(reindeer, 9, sleigh)
		go come(elves, 3, meeting)
	}
	journeys := 0
	for i := 0; i < 2400; i++ {
		select {
		case <-sleigh:
			journeys++
		case <-meeting:
		}
	}
	return fmt.Sprint(journeys)
}

// nothing is what the start of a process costs.
func nothing() string { return "" }

func main() {
	programs := map[string]func() string{"nothing": nothing, "uncontended": uncontended, "buffer": buffer, "lock": locked, "santa": santa}
	fmt.Println(programs[os.Args[1]]())
}
