// A hash by golang.org/x/crypto (Debian: golang-golang-x-crypto-dev), with the parameters of bench/beside.py.
package main

import (
	"fmt"
	"os"
	"strconv"

	"golang.org/x/crypto/argon2"
)

func main() {
	passes, _ := strconv.Atoi(os.Args[1])
	size, _ := strconv.Atoi(os.Args[2])
	fmt.Printf("%x", argon2.IDKey([]byte("password"), []byte("somesalt"), uint32(passes), 1<<size, 1, 32))
}
