// Reads documents of SARIF from standard input, one a line, each by the types of go-sarif and with no member that they
// lack, and writes them again. In place of one that it can't read it writes why.
package main

import (
	"bufio"
	"bytes"
	"encoding/json"
	"fmt"
	"io"
	"os"

	"github.com/haya14busa/go-sarif/sarif"
)

func read(line []byte) (again []byte, err error) {
	decoder := json.NewDecoder(bytes.NewReader(line))
	decoder.DisallowUnknownFields()
	var log sarif.Sarif
	if err = decoder.Decode(&log); err != nil {
		return nil, err
	}
	if _, err = decoder.Token(); err != io.EOF {
		return nil, fmt.Errorf("more than one value")
	}
	if log.Version != sarif.The210 {
		return nil, fmt.Errorf("the version %q", log.Version)
	}
	for _, run := range log.Runs {
		for _, result := range run.Results {
			switch *result.Level {
			case sarif.Error, sarif.Warning, sarif.Note:
			default:
				return nil, fmt.Errorf("the level %q", *result.Level)
			}
		}
	}
	return json.Marshal(log)
}

func main() {
	lines := bufio.NewReader(os.Stdin)
	for {
		line, ended := lines.ReadBytes('\n')
		if len(line) == 0 {
			return
		}
		again, err := read(line)
		if err != nil {
			again, _ = json.Marshal(err.Error())
		}
		fmt.Printf("%s\n", again)
		if ended != nil {
			return
		}
	}
}
