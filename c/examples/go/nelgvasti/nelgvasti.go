// Package nelgvasti is the library for Go: octets in, octets out, and errors. It is built with the header and the shared object that
// pkg-config finds as nelgvasti.
package nelgvasti

// #cgo pkg-config: nelgvasti
// #include <nelgvasti.h>
import "C"

import (
	"encoding/binary"
	"fmt"
	"unsafe"
)

// Error is the answer of a call that wrote nothing, as the header has it.
type Error uint32

// What a call refuses.
const (
	ErrUsage    Error = C.NELGVASTI_USAGE     // an argument is not what the call takes
	ErrMemory   Error = C.NELGVASTI_MEMORY    // memory ran out
	ErrNoSoa    Error = C.NELGVASTI_NO_SOA    // the messages have no SOA record of the apex
	ErrTooLarge Error = C.NELGVASTI_TOO_LARGE // the normal form has more than 65,535 octets
)

func (err Error) Error() string {
	return fmt.Sprintf("nelgvasti: answer %d", uint32(err))
}

// ShortError says that the message of this number has fewer than 12 octets.
type ShortError struct{ Message uint32 }

func (err ShortError) Error() string {
	return fmt.Sprintf("short %d", err.Message)
}

// ItemError says which item is the first of a message that can't be read.
type ItemError struct{ Message, Section, Index uint32 }

func (err ItemError) Error() string {
	return fmt.Sprintf("item %d %d %d", err.Message, err.Section, err.Index)
}

// ZoneDigest is the digest of a zone, of how many records and octets it is taken, and the digest itself.
type ZoneDigest struct {
	Records, Octets uint64
	Digest          [48]byte
}

func check(answer C.uint32_t, position *C.struct_nelgvasti_item_position) error {
	switch answer {
	case C.NELGVASTI_DONE:
		return nil
	case C.NELGVASTI_SHORT:
		return ShortError{uint32(position.message)}
	case C.NELGVASTI_ITEM:
		return ItemError{uint32(position.message), uint32(position.section), uint32(position.index)}
	}
	return Error(answer)
}

// Stands for no octets, since no pointer may be null.
var none [1]byte

// The octets as the library takes them.
func octets(slice []byte) (*C.uint8_t, C.size_t) {
	if len(slice) == 0 {
		return (*C.uint8_t)(&none[0]), 0
	}
	return (*C.uint8_t)(unsafe.Pointer(&slice[0])), C.size_t(len(slice))
}

// OwnerEnd is where the owner ends of the record with which octets begin.
func OwnerEnd(octets []byte) int {
	end := 0
	for octets[end] != 0 {
		end += 1 + int(octets[end])
	}
	return end + 1
}

// Canonical gives the canonical octets of each record of a message other than OPT, in canonical order.
func Canonical(message []byte) ([][]byte, error) {
	var size, count C.size_t
	var position C.struct_nelgvasti_item_position
	at, length := octets(message)
	if err := check(C.nelgvasti_canonical_size(at, length, &size, &count, &position), &position); err != nil {
		return nil, err
	}
	list := make([]byte, size)
	out, room := octets(list)
	if err := check(C.nelgvasti_canonical(at, length, out, room, &size, &position), &position); err != nil {
		return nil, err
	}
	records := make([][]byte, 0, count)
	for len(list) > 0 {
		data := OwnerEnd(list) + 10
		end := data + int(binary.BigEndian.Uint16(list[data-2:]))
		records = append(records, list[:end])
		list = list[end:]
	}
	return records, nil
}

// Same tells whether two messages carry the same records other than OPT.
func Same(first, second []byte) (bool, error) {
	var same C.uint32_t
	var position C.struct_nelgvasti_item_position
	at, length := octets(first)
	other, otherLength := octets(second)
	err := check(C.nelgvasti_same(at, length, other, otherLength, &same, &position), &position)
	return same == 1, err
}

// Normal gives the normal form of a message.
func Normal(message []byte) ([]byte, error) {
	var size C.size_t
	var position C.struct_nelgvasti_item_position
	form := make([]byte, 65535)
	at, length := octets(message)
	out, room := octets(form)
	if err := check(C.nelgvasti_normal(at, length, out, room, &size, &position), &position); err != nil {
		return nil, err
	}
	return form[:size], nil
}

// DigestZone gives the digest of the zone of an apex, a name in wire format, for the records of messages.
func DigestZone(messages [][]byte, apex []byte) (ZoneDigest, error) {
	var all []byte
	// One more than there are, so that the pointer to them leads somewhere.
	lengths := make([]C.size_t, len(messages)+1)
	for i, message := range messages {
		all = append(all, message...)
		lengths[i] = C.size_t(len(message))
	}
	var found C.struct_nelgvasti_digest
	var position C.struct_nelgvasti_item_position
	at, size := octets(all)
	name, nameSize := octets(apex)
	if err := check(C.nelgvasti_zone_digest(at, size, &lengths[0], C.size_t(len(messages)), name, nameSize, &found, &position), &position); err != nil {
		return ZoneDigest{}, err
	}
	digest := ZoneDigest{Records: uint64(found.records), Octets: uint64(found.octets)}
	for i, octet := range found.digest {
		digest.Digest[i] = byte(octet)
	}
	return digest, nil
}

// NSEC3Hash gives the hash of a name in wire format for NSEC3.
func NSEC3Hash(name, salt []byte, iterations uint16) ([20]byte, error) {
	var found C.struct_nelgvasti_hash
	at, length := octets(name)
	with, size := octets(salt)
	err := check(C.nelgvasti_nsec3_hash(at, length, with, size, C.uint16_t(iterations), &found), nil)
	var hash [20]byte
	for i, octet := range found.octets {
		hash[i] = byte(octet)
	}
	return hash, err
}

// KeyTag gives the tag of a key by the data of its DNSKEY record.
func KeyTag(data []byte) (uint16, error) {
	var tag C.uint16_t
	at, length := octets(data)
	err := check(C.nelgvasti_key_tag(at, length, &tag), nil)
	return uint16(tag), err
}
