// The peer of bench/trees: HashiCorp's own HCL formatter over all files of a folder, in one process.
//
//	trees [--check] GOROUTINES FOLDER
//
// It takes the .tf files in the folder and below, parses each as `terraform fmt` does before it formats, formats it, and
// writes it where the result differs, or with `--check` prints its name. The status is 3 where a checked file differs.
package main

import (
	"bytes"
	"fmt"
	"os"
	"path/filepath"
	"strconv"
	"strings"
	"sync"
	"sync/atomic"

	"github.com/hashicorp/hcl/v2"
	"github.com/hashicorp/hcl/v2/hclsyntax"
	"github.com/hashicorp/hcl/v2/hclwrite"
)

func fail(err error) {
	fmt.Fprintln(os.Stderr, err)
	os.Exit(4)
}

// look formats a file, and answers whether it wasn't formatted.
func look(path string, check bool) bool {
	source, err := os.ReadFile(path)
	if err != nil {
		fail(err)
	}
	if _, faults := hclsyntax.ParseConfig(source, path, hcl.Pos{Line: 1, Column: 1}); faults.HasErrors() {
		fail(faults)
	}
	result := hclwrite.Format(source)
	if bytes.Equal(source, result) {
		return false
	}
	if !check {
		if err := os.WriteFile(path, result, 0644); err != nil {
			fail(err)
		}
	}
	fmt.Println(path)
	return true
}

func main() {
	words := os.Args[1:]
	check := len(words) > 0 && words[0] == "--check"
	if check {
		words = words[1:]
	}
	goroutines, err := strconv.Atoi(words[0])
	if err != nil {
		fail(err)
	}
	names := make(chan string, 64)
	var differ atomic.Bool
	var workers sync.WaitGroup
	for worker := 0; worker < goroutines; worker++ {
		workers.Add(1)
		go func() {
			defer workers.Done()
			for name := range names {
				if look(name, check) {
					differ.Store(true)
				}
			}
		}()
	}
	err = filepath.WalkDir(words[1], func(path string, entry os.DirEntry, err error) error {
		if err == nil && entry.Type().IsRegular() && strings.HasSuffix(path, ".tf") {
			names <- path
		}
		return err
	})
	close(names)
	workers.Wait()
	if err != nil {
		fail(err)
	}
	if check && differ.Load() {
		os.Exit(3)
	}
}
