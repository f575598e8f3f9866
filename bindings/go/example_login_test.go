package scrypt_test

import (
	"context"
	"errors"
	"fmt"
	"io"
	"log"
	"time"

	"nilomafy.example/scrypt"
)

// logIn returns nil, ErrMismatch if the name or the password is wrong, or an error for which a
// server responds with 503. The map stands for a database table; the comments are its statements.
func logIn(ctx context.Context, hasher *scrypt.Hasher, users map[string]string, name, password string) error {
	// Timeout: under load a log-in fails before its client gives up.
	ctx, cancel := context.WithTimeout(ctx, 10*time.Second)
	defer cancel()
	// Unknown user: without a hash, Verify takes the time of a wrong password.
	text := users[name] // SELECT hash FROM users WHERE name = $1
	stronger, err := hasher.VerifyAndUpdate(ctx, text, []byte(password))
	// Rejected hash: it is logged, and looks like a wrong password, with the same time.
	if errors.Is(err, scrypt.ErrRejected) {
		log.Printf("the hash of %q is rejected: %v", name, err)
		err = hasher.Verify(ctx, "", []byte(password))
	}
	// Rehash by compare-and-swap: a password that was changed in between is not overwritten.
	if stronger != "" && users[name] == text {
		users[name] = stronger // UPDATE users SET hash = $3 WHERE name = $1 AND hash = $2
	}
	return err
}

func Example_logIn() {
	log.SetOutput(io.Discard)
	ctx := context.Background()
	hasher, err := scrypt.NewHasher(scrypt.Options{})
	if err != nil {
		log.Fatal(err)
	}
	const saltAndKey = "$HG9aBt+HvUZPkqDAM2O0xA$LfLLhSRu7FBbLm+uWhbHX1+2Okjtk+xomb9znj8tWGw"
	users := map[string]string{"ann": "$scrypt$ln=14,r=8,p=1" + saltAndKey, "eve": "$scrypt$ln=30,r=8,p=1" + saltAndKey}
	fmt.Println(logIn(ctx, hasher, users, "ann", "hunter42"))
	fmt.Println(users["ann"][:14])
	for _, name := range []string{"ann", "nobody", "eve"} {
		begun := time.Now()
		fmt.Println(logIn(ctx, hasher, users, name, "hunter2"), time.Since(begun) > 20*time.Millisecond) // a derivation
	}
	// Output:
	// <nil>
	// $scrypt$ln=17,
	// scrypt: the password does not match the hash true
	// scrypt: the password does not match the hash true
	// scrypt: the password does not match the hash true
}
