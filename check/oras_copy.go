// Copies by the library oras-go 1.1, and prints the digest of what was copied:
//
//	oras_copy push REFERENCE LAYOUT   what an OCI layout has under the tag v1
//	oras_copy pull REFERENCE          into memory, each blob compared with its digest
//
// Standard input has the name and password, with a colon between them, or nothing.
package main

import (
	"context"
	"fmt"
	"io"
	"os"
	"strings"

	"oras.land/oras-go/pkg/content"
	"oras.land/oras-go/pkg/oras"
	"oras.land/oras-go/pkg/target"
)

func run(words []string) error {
	given, err := io.ReadAll(os.Stdin)
	if err != nil {
		return err
	}
	name, password, _ := strings.Cut(strings.TrimSpace(string(given)), ":")
	// (it takes `localhost` for a host without TLS, whatever it is told)
	registry, err := content.NewRegistry(content.RegistryOptions{Username: name, Password: password, PlainHTTP: true})
	if err != nil {
		return err
	}
	var from, to target.Target = registry, content.NewMemory()
	source, aim := words[1], "pulled"
	if words[0] == "push" {
		layout, err := content.NewOCI(words[2])
		if err != nil {
			return err
		}
		from, source, to, aim = layout, "v1", registry, words[1]
	}
	copied, err := oras.Copy(context.Background(), from, source, to, aim)
	if err != nil {
		return err
	}
	fmt.Println(copied.Digest)
	return nil
}

func main() {
	if err := run(os.Args[1:]); err != nil {
		fmt.Fprintln(os.Stderr, err)
		os.Exit(1)
	}
}
