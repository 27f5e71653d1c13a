// Prints with the library what `dnscanon` prints: `lines canon`, `same`, `normal`, `keytags`, `zone APEX` and `hash NAME SALT N`. Messages come
// as lines of hexadecimal digits on standard input. Names on the command line have no escapes.
package main

import (
	"encoding/base32"
	"encoding/hex"
	"errors"
	"fmt"
	"io"
	"os"
	"strconv"
	"strings"

	"example/nelgvasti"
)

func nameOf(text string) []byte {
	var name []byte
	for _, label := range strings.Split(text, ".") {
		if label != "" {
			name = append(append(name, byte(len(label))), label...)
		}
	}
	return append(name, 0)
}

func hash(name, salt, iterations string) ([]string, error) {
	octets, err := hex.DecodeString(strings.TrimPrefix(salt, "-"))
	if err != nil {
		return nil, nelgvasti.ErrUsage
	}
	count, err := strconv.ParseUint(iterations, 10, 16)
	if err != nil {
		return nil, nelgvasti.ErrUsage
	}
	found, err := nelgvasti.NSEC3Hash(nameOf(name), octets, uint16(count))
	return []string{strings.ToLower(base32.HexEncoding.EncodeToString(found[:]))}, err
}

func tags(message []byte) ([]string, error) {
	records, err := nelgvasti.Canonical(message)
	var lines []string
	for _, octets := range records {
		rest := octets[nelgvasti.OwnerEnd(octets):]
		if rest[0] != 0 || rest[1] != 48 {
			continue
		}
		if tag, err := nelgvasti.KeyTag(rest[10:]); err == nil {
			lines = append(lines, strconv.Itoa(int(tag)))
		} else {
			lines = append(lines, "-")
		}
	}
	return lines, err
}

func canon(message []byte) ([]string, error) {
	records, err := nelgvasti.Canonical(message)
	var lines []string
	for _, octets := range records {
		lines = append(lines, hex.EncodeToString(octets))
	}
	return lines, err
}

func same(first, second []byte) ([]string, error) {
	if same, err := nelgvasti.Same(first, second); err != nil || !same {
		return []string{"different"}, err
	}
	return []string{"same"}, nil
}

func zone(messages [][]byte, apex string) ([]string, error) {
	found, err := nelgvasti.DigestZone(messages, nameOf(apex))
	return []string{fmt.Sprintf("records %d octets %d", found.Records, found.Octets), "digest " + hex.EncodeToString(found.Digest[:])}, err
}

func printed(words []string) ([]string, error) {
	if len(words) == 4 && words[0] == "hash" {
		return hash(words[1], words[2], words[3])
	}
	text, err := io.ReadAll(os.Stdin)
	if err != nil {
		return nil, nelgvasti.ErrUsage
	}
	var messages [][]byte
	for _, line := range strings.Fields(string(text)) {
		octets, _ := hex.DecodeString(line)
		messages = append(messages, octets)
	}
	first, second := []byte{}, []byte{}
	if len(messages) > 0 {
		first = messages[0]
	}
	if len(messages) > 1 {
		second = messages[1]
	}
	switch {
	case len(words) == 2 && words[0] == "zone":
		return zone(messages, words[1])
	case len(words) != 1:
		return nil, nelgvasti.ErrUsage
	case words[0] == "canon":
		return canon(first)
	case words[0] == "same":
		return same(first, second)
	case words[0] == "normal":
		form, err := nelgvasti.Normal(first)
		return []string{hex.EncodeToString(form)}, err
	case words[0] == "keytags":
		return tags(first)
	}
	return nil, nelgvasti.ErrUsage
}

// The exit status of `dnscanon` for the same.
func status(err error) int {
	var answer nelgvasti.Error
	var short nelgvasti.ShortError
	var item nelgvasti.ItemError
	switch {
	case errors.As(err, &short):
		fmt.Fprintln(os.Stderr, err)
		return 1
	case errors.As(err, &item):
		fmt.Fprintln(os.Stderr, err)
		return 2
	case errors.As(err, &answer):
		return int(answer)
	}
	return 0
}

func main() {
	lines, err := printed(os.Args[1:])
	if err == nil {
		for _, line := range lines {
			fmt.Println(line)
		}
	}
	os.Exit(status(err))
}
