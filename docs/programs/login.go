// Enrols a password, and lets in whoever knows it: go run login.go
package main

// #cgo LDFLAGS: -lpikhsen
// #include <pikhsen.h>
import "C"

import (
	"crypto/rand"
	"errors"
	"fmt"
	"unsafe"
)

// What C takes for some bytes: null where there are none.
func bytes(of []byte) (*C.char, C.size_t) {
	if len(of) == 0 {
		return nil, 0
	}
	return (*C.char)(unsafe.Pointer(&of[0])), C.size_t(len(of))
}

// The text to store for a new account: 64 MiB, 3 passes, 4 lanes, which RFC 9106 recommends second.
func enrol(password []byte) (string, error) {
	var salt [16]byte
	var room [121]C.char // PIKHSEN_ENCODED_ROOM(16, 32)
	var n C.size_t
	if _, err := rand.Read(salt[:]); err != nil || len(password) == 0 {
		return "", errors.New("no password, or no salt")
	}
	at, size := bytes(password)
	told := C.pikhsen_argon2_encoded(C.PIKHSEN_ARGON2ID, 0x13, 3, 65536, 4, at, size, unsafe.Pointer(&salt[0]), 16, 32,
		65536, 1<<18, &room[0], C.size_t(len(room)), &n)
	if told != C.PIKHSEN_OK {
		return "", fmt.Errorf("pikhsen.h: status %d", told)
	}
	return C.GoStringN(&room[0], C.int(n)), nil
}

// At most 1 GiB and 2^23 block functions, whoever wrote the text.
func answer(text string, password []byte) string {
	stored, storedSize := bytes([]byte(text))
	at, size := bytes(password)
	switch C.pikhsen_argon2_verify(stored, storedSize, at, size, 1<<20, 1<<23) {
	case C.PIKHSEN_OK:
		return "welcome"
	case C.PIKHSEN_MISMATCH:
		return "not you"
	case C.PIKHSEN_MEMORY_LIMIT, C.PIKHSEN_WORK_LIMIT: // the text asks for more
		return "set a new password"
	default:
		return "try again later"
	}
}

func main() {
	text, err := enrol([]byte("correct horse"))
	if err != nil {
		panic(err)
	}
	fmt.Println(text[:30] + "..")
	fmt.Println(answer(text, []byte("correct horse")))
	fmt.Println(answer(text, []byte("battery staple")))
}
