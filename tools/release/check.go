// Prints the first key of RFC 7914, section 12, by the module of the release.
package main

import (
	"fmt"
	"log"

	"nilomafy.example/scrypt"
)

func main() {
	key, err := scrypt.Key(nil, nil, 16, 1, 1, 64)
	if err != nil {
		log.Fatal(err)
	}
	fmt.Printf("%x\n", key)
}
