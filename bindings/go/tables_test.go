package scrypt

import (
	"encoding/hex"
	"errors"
	"fmt"
	"os"
	"strings"
	"testing"
)

// The errors by the statuses of ../cases.tsv.
var statuses = map[string]error{
	"OK": nil, "MISMATCH": ErrMismatch, "TOO_COSTLY": ErrTooCostly, "KEY_TOO_SHORT": ErrKeyTooShort,
	"ALGORITHM": ErrAlgorithm, "VERSION": ErrVersion, "ENCODING_INVALID": ErrEncodingInvalid, "OUTPUT_SIZE": ErrOutputSize,
	"HASH_PARAM_INVALID": ErrHashParamInvalid, "HASH_PARAMS_INVALID": ErrHashParamsInvalid,
}

// rows returns the lines of a table, without the header, each split into words.
func rows(t *testing.T, path string) (found [][]string) {
	file, err := os.ReadFile(path)
	if err != nil {
		if _, notHere := os.Stat("test.sh"); notHere != nil {
			t.Skip(err) // a release's module has neither
		}
		t.Fatal(err)
	}
	for _, line := range strings.Split(strings.TrimSuffix(string(file), "\n"), "\n")[1:] {
		found = append(found, strings.Split(line, "\t"))
	}
	return found
}

func TestCases(t *testing.T) {
	hasher := newHasher(t, Options{})
	for _, words := range rows(t, "../cases.tsv") {
		text, want := strings.ReplaceAll(words[2], "\\0", "\x00"), statuses[words[0]]
		if text == "" { // as for an unknown user
			want = ErrMismatch
		}
		err, isRejected := hasher.Verify(ctx, text, []byte(words[1])), want != nil && want != ErrMismatch
		check(t, errors.Is(err, want) && errors.Is(err, ErrRejected) == isRejected, text, err, words[0])
		isUnread := isRejected && want != ErrTooCostly && want != ErrKeyTooShort
		_, unread := ParamsOf(text)
		_, unreadToo := hasher.NeedsRehash(text)
		isRight := !isUnread || unread == want && unreadToo == want
		if len(words) > 3 {
			isRight = err.Error() == fmt.Sprintf("%v: %s", want, words[3])
		}
		check(t, isRight && errors.Is(err, ErrInvalidHash) == isUnread, text, err, unread, unreadToo)
	}
}

// TestStored makes the hashes of bindings/stored.tsv, also from those of simple-scrypt.
func TestStored(t *testing.T) {
	for _, words := range rows(t, "../stored.tsv") {
		salt, _ := hex.DecodeString(words[0])
		key, _ := hex.DecodeString(words[1])
		var n, r, p int
		_, _ = fmt.Sscan(strings.Join(words[2:5], " "), &n, &r, &p)
		text, err := StoredText(salt, key, n, r, p)
		check(t, text == words[5] && (err == nil) == (text != ""), words, text, err)
		isHinted := err != nil && strings.Contains(err.Error(), "may be its logarithm")
		check(t, isHinted == (n >= 1 && n < 64), words, err)
		text, err = FromSimpleScrypt(strings.Join(append(words[2:5:5], words[:2]...), "$"))
		check(t, n == 16 || text == words[5] && (err == nil) == (text != ""), words, text, err)
	}
}
