package scrypt

import (
	b "bytes"
	"encoding/hex"
	"encoding/json"
	"fmt"
	"os"
	"strings"
	"testing"
)

// hexBytes are bytes of the test vectors: in hexadecimal, or pairs of such bytes and how often they are repeated.
type hexBytes []byte

func (h *hexBytes) UnmarshalJSON(it []byte) (err error) {
	var text string
	var runs [][2]any
	if err = json.Unmarshal(it, &text); err == nil {
		*h, err = hex.DecodeString(text)
		return err
	}
	err = json.Unmarshal(it, &runs)
	for _, run := range runs {
		one, _ := hex.DecodeString(run[0].(string))
		if run[1].(float64) < 1<<30 {
			*h = append(*h, b.Repeat(one, int(run[1].(float64)))...)
		}
	}
	return err
}

// TestVectors runs the files of vectors/, but for what needs 1 GiB; keys also in steps.
func TestVectors(t *testing.T) {
	hasher := newHasher(t, Options{})
	for _, name := range []string{"kdf", "phc", "mcf"} {
		file, err := os.ReadFile(fmt.Sprintf("../../vectors/scrypt_%s_test.json", name))
		if err != nil {
			if _, notHere := os.Stat("test.sh"); notHere != nil {
				t.Skip(err) // a release's module has neither
			}
			t.Fatal(err)
		}
		var of struct {
			TestGroups []struct {
				Tests []struct {
					TcID                     int
					Comment, Result          string
					Flags                    []string
					Password, Salt, Hash, Dk hexBytes
					N, R, P, DkLen           float64
				}
			}
		}
		check(t, json.Unmarshal(file, &of) == nil, name)
		for _, group := range of.TestGroups {
			for _, it := range group.Tests {
				if strings.Contains(strings.Join(it.Flags, " "), "LargeMemory") {
					continue
				}
				var err error
				if name == "kdf" && it.N >= 1<<63 {
					continue // no int has it
				} else if name == "kdf" {
					var key []byte
					key, err = Key(it.Password, it.Salt, int(it.N), int(it.R), int(it.P), int(it.DkLen))
					last := 0.0
					inSteps, late := KeyContext(ctx, it.Password, it.Salt, int(it.N), int(it.R), int(it.P), int(it.DkLen), func(done float64) {
						check(t, done > last && done <= 1, done, last)
						last = done
					})
					check(t, err != nil || b.Equal(key, it.Dk) && last == 1, name, it.TcID, it.Comment, last)
					check(t, b.Equal(inSteps, key) && (late == nil) == (err == nil), name, it.TcID, it.Comment, late)
				} else {
					err = hasher.Verify(ctx, string(it.Hash), it.Password)
				}
				isRight := it.Result == "acceptable" || (err == nil) == (it.Result == "valid")
				check(t, isRight, name, it.TcID, it.Comment, err)
			}
		}
	}
}
