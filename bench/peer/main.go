// The peer of the benchmark: HashiCorp's own HCL formatter as a filter.
//
// It reads a file from standard input, parses it as `terraform fmt` does before it formats (a file with a
// syntax error is refused with status 2), formats it, and writes the result to standard output. With
// `--check` it writes nothing and ends with status 3 where the result differs from the input.
//
// `bench/run` builds it from Debian's packages golang-go and golang-github-hashicorp-hcl-v2-dev.
package main

import (
	"bytes"
	"fmt"
	"io"
	"os"

	"github.com/hashicorp/hcl/v2"
	"github.com/hashicorp/hcl/v2/hclsyntax"
	"github.com/hashicorp/hcl/v2/hclwrite"
)

func main() {
	check := len(os.Args) == 2 && os.Args[1] == "--check"
	if len(os.Args) > 1 && !check {
		fmt.Fprintln(os.Stderr, "usage: peer [--check]")
		os.Exit(2)
	}
	source, err := io.ReadAll(os.Stdin)
	if err != nil {
		fmt.Fprintln(os.Stderr, "peer: read failed")
		os.Exit(4)
	}
	_, faults := hclsyntax.ParseConfig(source, "stdin", hcl.Pos{Line: 1, Column: 1})
	if faults.HasErrors() {
		fmt.Fprintf(os.Stderr, "peer: %s\n", faults.Error())
		os.Exit(2)
	}
	result := hclwrite.Format(source)
	if check {
		if !bytes.Equal(source, result) {
			os.Exit(3)
		}
		return
	}
	if _, err := os.Stdout.Write(result); err != nil {
		fmt.Fprintln(os.Stderr, "peer: write failed")
		os.Exit(4)
	}
}
