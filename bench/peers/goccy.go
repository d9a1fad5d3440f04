// goccy/go-yaml: its lexer. What a driver is given and prints is told in turns.h.
package main

import (
	"bufio"
	"fmt"
	"os"
	"syscall"

	"github.com/goccy/go-yaml/lexer"
)

// now is the processor time of this process, with its collector of memory.
func now() int64 {
	var used syscall.Rusage
	syscall.Getrusage(syscall.RUSAGE_SELF, &used)
	return used.Utime.Nano() + used.Stime.Nano()
}

func main() {
	bytes, err := os.ReadFile(os.Args[1])
	if err != nil {
		os.Exit(1)
	}
	text := string(bytes)
	for lines := bufio.NewScanner(os.Stdin); lines.Scan(); {
		count, start := 0, now()
		if lines.Text() == "tokens" {
			count = len(lexer.Tokenize(text))
		}
		fmt.Println(count, now()-start)
	}
}
