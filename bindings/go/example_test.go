package scrypt_test

import (
	"context"
	"crypto/rand"
	"errors"
	"fmt"
	"log"

	"nilomafy.example/scrypt"
)

func ExampleHasher() {
	ctx := context.Background()
	hasher, err := scrypt.NewHasher(scrypt.Options{})
	if err != nil {
		log.Fatal(err)
	}
	text, err := hasher.Hash(ctx, []byte("hunter42")) // store this
	if err != nil {
		log.Fatal(err)
	}
	fmt.Println(hasher.Verify(ctx, text, []byte("hunter42")))
	fmt.Println(errors.Is(hasher.Verify(ctx, text, []byte("hunter2")), scrypt.ErrMismatch))
	// Output:
	// <nil>
	// true
}

func ExampleKey() {
	salt := make([]byte, 16)
	if _, err := rand.Read(salt); err != nil {
		log.Fatal(err)
	}
	key, err := scrypt.Key([]byte("hunter42"), salt, 1<<15, 8, 1, 32)
	fmt.Println(len(key), err)
	// Output: 32 <nil>
}
