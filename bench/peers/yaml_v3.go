// yaml.v3: Unmarshal into nodes and into values. Its scanner and its parser are not public. What a driver is given and prints
// is told in turns.h.
package main

import (
	"bufio"
	"fmt"
	"os"
	"syscall"

	"gopkg.in/yaml.v3"
)

func nodes(text []byte) int {
	var document yaml.Node
	if yaml.Unmarshal(text, &document) != nil {
		return 0
	}
	return len(document.Content[0].Content) / 2
}

func load(text []byte) int {
	var value map[string]interface{}
	if yaml.Unmarshal(text, &value) != nil {
		return 0
	}
	return len(value)
}

// now is the processor time of this process, with its collector of memory.
func now() int64 {
	var used syscall.Rusage
	syscall.Getrusage(syscall.RUSAGE_SELF, &used)
	return used.Utime.Nano() + used.Stime.Nano()
}

func main() {
	text, err := os.ReadFile(os.Args[1])
	if err != nil {
		os.Exit(1)
	}
	for lines := bufio.NewScanner(os.Stdin); lines.Scan(); {
		count, start := 0, now()
		switch lines.Text() {
		case "nodes":
			count = nodes(text)
		case "loading":
			count = load(text)
		}
		fmt.Println(count, now()-start)
	}
}
