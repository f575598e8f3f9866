package scrypt

import (
	"context"
	"errors"
	"fmt"
	"math"
	"os"
	"reflect"
	"runtime"
	"strings"
	"testing"
	"time"
)

const (
	shortKey = "$c2FsdHNhbHQ$AAAAAAAAAAAAAAAAAAAA" // a salt, and a key of 15 bytes
	noHash   = "$scrypt$ln=4,r=8,p=1" + shortKey + "AA"
	costly   = "$scrypt$ln=17,r=8,p=4" + shortKey + "AA" // takes some hundred milliseconds
	huge     = "$scrypt$ln=56,r=1,p=1" + shortKey + "AA"
)

var (
	ctx   = context.Background()
	small = Options{Params: Params{LogN: 4}, MaxTables: 1}
)

// check fails a test, and prints the values, if something is not right.
func check(t *testing.T, isRight bool, values ...any) {
	t.Helper()
	if !isRight {
		t.Errorf("%+v", values)
	}
}

// wait returns when isRight returns true; otherwise the timeout of the tests ends it.
func wait(isRight func() bool) {
	for !isRight() {
		time.Sleep(time.Millisecond)
	}
}

// fault returns the error of a call, which must not return another value with it.
func fault(value any, err error) error {
	if err != nil && !reflect.ValueOf(value).IsZero() {
		return fmt.Errorf("%v with the error %v", value, err)
	}
	return err
}

func newHasher(t *testing.T, options Options) *Hasher {
	hasher, err := NewHasher(options)
	check(t, err == nil, options, err)
	return hasher
}

func TestHashes(t *testing.T) {
	password, salt, usual := []byte("pass\x00word"), []byte("saltsalt"), newHasher(t, Options{})
	for _, it := range []struct {
		options Options
		salt    []byte
		want    string // the text, whose key is hashlib's
	}{
		{Options{Params: Params{5, 3, 2, 20}}, salt, "$scrypt$ln=5,r=3,p=2$c2FsdHNhbHQ$JKedy3/pPEaQ9TR4ftXUBiuxkK8"},
		{Options{Params: Params{4, 8, 1, 32}, MCF: true}, nil, "$7$26..../....$fQQtT8CamUzif3mWSfaXAN/SUnYR6iHSdkE.XUbEX/7"},
	} {
		hasher := newHasher(t, it.options)
		text, err := hasher.HashWithSalt(ctx, password, it.salt)
		check(t, text == it.want && err == nil, text, err)
		check(t, hasher.Verify(ctx, text, password) == nil && hasher.Verify(ctx, text, nil) == ErrMismatch, text)
		isWeak, err := hasher.NeedsRehash(text)
		isWeaker, _ := usual.NeedsRehash(text)
		check(t, !isWeak && isWeaker && err == nil, text, isWeak, isWeaker, err)
		kept, err := hasher.VerifyAndUpdate(ctx, text, password)
		stronger, errUsual := usual.VerifyAndUpdate(ctx, text, password)
		check(t, kept == "" && err == nil && errUsual == nil && usual.Verify(ctx, stronger, password) == nil, kept, stronger, err)
		check(t, fault(usual.VerifyAndUpdate(ctx, text, nil)) == ErrMismatch && fault(usual.VerifyAndUpdate(ctx, "", nil)) == ErrMismatch, text)
		one, _ := hasher.Hash(ctx, nil)
		other, err := hasher.Hash(ctx, nil)
		check(t, one != other && err == nil && hasher.Verify(ctx, one, nil) == nil, one, other, err)
		key, err := hasher.Key(ctx, password, salt, 1000)
		params, _ := ParamsOf(text)
		want, _ := Key(password, salt, 1<<params.LogN, params.R, params.P, 1000)
		check(t, string(key) == string(want), key, err)
	}
}

// Each default is replaced by its value; new hashes may exceed the default limits. The goroutines
// in C form two batches for each processor, and are no more than mostInside.
func TestOptions(t *testing.T) {
	usual, large := newHasher(t, Options{}).Options(), newHasher(t, Options{Params: Params{LogN: 19, P: 2}}).Options()
	tables, processors := usual.MaxTables, usual.Processors
	maxMem, maxWork, minKeyLen := DefaultLimits()
	check(t, usual == Options{Recommended(), false, 16, tables, processors, maxMem, maxWork, minKeyLen, 1000, 0}, usual)
	check(t, tables >= 1 && tables <= 2*processors && processors <= runtime.NumCPU(), usual)
	check(t, large.MaxMem == 536875008 && large.MaxWork == 33556480, large)
	for given, inside := range map[Options]int{
		{Params{5, 3, 2, 20}, true, 1, 2, 3, 1 << 20, 1 << 16, 20, 1, time.Second}:                                                       2 * perSlot,
		{Params{5, 3, 2, 20}, true, 64, 3, 2, 1 << 20, 1 << 16, 1, 7, 0}:                                                                 2 * perSlot,
		{Params{4, 8, 1, 32}, false, 16, math.MaxInt64, math.MaxInt64, math.MaxUint64, math.MaxUint64, 16, math.MaxInt64, math.MaxInt64}: 4096,
	} {
		hasher := newHasher(t, given)
		check(t, hasher.Options() == given && cap(hasher.shared.inside) == inside, given, cap(hasher.shared.inside))
	}
	memory, err := Params{27, 1<<30 - 1, 1, 32}.Memory()
	work, errOfWork := Params{56, 1, 1 << 29, 32}.Work()
	check(t, memory == math.MaxUint64 && work == math.MaxUint64 && err == nil && errOfWork == nil, memory, work, err, errOfWork)
	defer runtime.GOMAXPROCS(runtime.GOMAXPROCS(1))
	check(t, newHasher(t, Options{}).Options().Processors == 1, "GOMAXPROCS")
}

// Arguments that are rejected, and words of the errors. C's types would truncate some of these
// numbers to accepted ones.
func TestRejectedArguments(t *testing.T) {
	const stored, most = "1024$8$1$73656173616c74$703969a2643cb636f2e6", uint64(math.MaxUint64)
	hasher, closed, zero, secret := newHasher(t, small), newHasher(t, small), new(Hasher), make([]byte, 65)
	check(t, closed.Close() == nil && closed.Close() == nil && zero.Close() == nil && zero.Options() == Options{} && zero.Stats() == Stats{})
	made := func(options Options) error { return fault(NewHasher(options)) }
	with := func(logN, r, p, keyLen int) error { return made(Options{Params: Params{logN, r, p, keyLen}}) }
	key := func(n, r, p, keyLen int) error { return fault(Key(nil, nil, n, r, p, keyLen)) }
	canceled, cancel := context.WithCancel(ctx)
	cancel()
	verify := func(text string, options Options) error { return newHasher(t, options).Verify(ctx, text, nil) }
	simple := func(old, new string) error { return fault(FromSimpleScrypt(strings.Replace(stored, old, new, 1))) }
	for i, it := range []struct {
		err, want error
		words     string
	}{
		{zero.Verify(ctx, noHash, nil), ErrClosed, ""},
		{closed.Verify(ctx, noHash, nil), ErrClosed, ""},
		{fault(zero.NeedsRehash(noHash)), ErrClosed, ""},
		{fault(closed.NeedsRehash(noHash)), nil, ""},
		{made(Options{MaxTables: -1}), ErrInvalidOption, "MaxTables:-1"},
		{made(Options{Processors: -1}), ErrInvalidOption, "Processors:-1"},
		{made(Options{MinKeyLen: -1}), ErrInvalidOption, "MinKeyLen:-1"},
		{made(Options{MinKeyLen: 33}), ErrInvalidParams, "MinKeyLen:33"},
		{made(Options{SaltLen: -1}), ErrSaltInvalid, "SaltLen:-1"},
		{made(Options{MaxMem: 134220799}), ErrTooCostly, "need 134220800 bytes"},
		{made(Options{MaxWork: 4195327}), ErrTooCostly, "a work of 4195328"},
		{with(0, 0, 0, -1), ErrInvalidParams, "KeyLen:-1"},
		{with(17+1<<32, 0, 0, 0), ErrInvalidParams, "LogN:4294967313"},
		{with(0, 8+1<<32, 0, 0), ErrInvalidParams, "R:4294967304"},
		{with(0, 0, 1-1<<32, 0), ErrInvalidParams, "P:-4294967295"},
		{with(16384, 0, 0, 0), ErrInvalidParams, "log_n is the logarithm of N, 14 for 16384): LogN 16384, R 8 and P 1"},
		{with(57, 0, 0, 0), ErrInvalidParams, "LogN 57, R 8 and P 1 are not accepted: {"},
		{verify(costly, Options{MaxWork: 16781311}), ErrTooCostly, "a work of 16781312 (at most 16781311)"},
		{verify(costly, Options{MaxMem: 134223871}), ErrTooCostly, "need 134223872 bytes (at most 134223871)"},
		{verify(noHash[:len(noHash)-2], Options{}), ErrKeyTooShort, "its length is 15"},
		{verify(noHash[:len(noHash)-2], Options{Params: Params{KeyLen: 15}}), ErrMismatch, ""},
		{verify(noHash[:len(noHash)-2], Options{MinKeyLen: 15}), ErrMismatch, ""},
		{verify(noHash, Options{MinKeyLen: 17}), ErrKeyTooShort, "at least 17 is required"},
		{fault(hasher.VerifyAndUpdate(ctx, "$7$", nil)), ErrEncodingInvalid, ""},
		{fault(zero.VerifyAndUpdate(ctx, noHash, nil)), ErrClosed, ""},
		{verify(huge, Options{MaxMem: most, MaxWork: most}), ErrOutOfMemory, ""},
		{fault(hasher.HashWithSalt(ctx, nil, nil)), ErrSaltInvalid, ""},
		{fault(hasher.Key(ctx, nil, nil, 0)), ErrInvalidOutputLen, ""},
		{key(15, 8, 1, 32), ErrInvalidParams, "scrypt: N must be a power of two above 1: 15"},
		{key(-16, 8, 1, 32), ErrInvalidParams, "N must be a power of two above 1: -16"},
		{key(1, 8, 1, 32), ErrInvalidParams, "N must be a power of two above 1: 1"},
		{fault(KeyContext(ctx, nil, nil, 1, 8, 1, 32, nil)), ErrInvalidParams, "a power of two above 1: 1"},
		{fault(KeyContext(canceled, nil, nil, 15, 8, 1, 0, nil)), context.Canceled, ""},
		{fault(Params{56, 1 << 29, 1, 32}.Memory()), ErrInvalidParams, ""},
		{fault(Params{56, 1 << 29, 1, 32}.Work()), ErrInvalidParams, ""},
		{key(16, 0, 1, 1<<36), ErrInvalidParams, "r and p at least 1"}, // before the key takes memory
		{key(16, 1, 1+1<<32, 32), ErrInvalidParams, "p is 4294967297"},
		{key(16, 8, 1, 137438953441), ErrInvalidOutputLen, "1 to 137438953440 bytes"},
		{key(1<<56, 1, 1, 32), ErrOutOfMemory, "need 9223372036854776192 bytes"},
		{fault(KeyContext(ctx, nil, nil, 1<<56, 1, 1, 32, nil)), ErrOutOfMemory, "need 9223372036854776192 bytes"},
		{fault(Calibrate(time.Microsecond, 32<<20)), ErrTooCostly, ""},
		{fault(Calibrate(time.Second, 1000)), ErrTooCostly, ""},
		{fault(StoredText([]byte("sea$salt"), secret[:9], 64, 8, 1)), ErrSaltInvalid, "$7$ hash must be UTF-8 without a $"},
		{fault(StoredText(nil, secret, 14, 8, 1)), ErrInvalidParams, "N is at least 64, and 14 may be its logarithm"},
		{simple("1024", "16"), nil, ""},
		{simple("1024", "1"), ErrInvalidParams, "N must be above 1"},
		{simple("f2e6", "f2e6$x"), ErrEncodingInvalid, ""},
		{simple("1024", "+1024"), ErrEncodingInvalid, ""},
		{simple("1024", "1024"+strings.Repeat("0", 30)), ErrEncodingInvalid, ""},
		{simple("7365", "7!65"), ErrEncodingInvalid, ""},
		{simple("f2e6", "f2e"), ErrEncodingInvalid, ""},
		{simple("8$1", "8"), ErrEncodingInvalid, ""},
	} {
		check(t, errors.Is(it.err, it.want) && strings.Contains(fmt.Sprint(it.err), it.words), i, it)
	}
}

// KeyContext returns when its context is done, after steps of about 10 ms; Calibrate finds parameters
// below its target.
func TestKeyContextAndCalibrate(t *testing.T) {
	ctx, cancel := context.WithTimeout(ctx, 100*time.Millisecond)
	defer cancel()
	steps, late := 0, 0
	key, err := KeyContext(ctx, nil, nil, 1<<20, 8, 1, 32, func(float64) {
		if steps++; ctx.Err() != nil {
			late++
		}
	})
	check(t, err == context.DeadlineExceeded && key == nil && late < 2 && steps < 100, err, late, steps)
	secret := []byte("pw")
	key, err = KeyContext(context.Background(), secret, nil, 16, 8, 1, 32, func(float64) { wipe(secret) })
	want, _ := Key([]byte("pw"), nil, 16, 8, 1, 32)
	check(t, err == nil && string(key) == string(want), "a password that changes between the steps", key, want)
	found, err := Calibrate(50*time.Millisecond, 32<<20)
	check(t, err == nil && found.LogN >= 10 && found.LogN <= 15 && found.P >= 1 && found.KeyLen == 32, found, err)
}

// busy makes the hasher derive on its only processor.
func busy(t *testing.T, hasher *Hasher) {
	go func() { _ = hasher.Verify(ctx, costly, nil) }()
	wait(func() bool { return hasher.Stats().Deriving > 0 })
}

// A call returns when its context is done: outside of C, waiting in C, and deriving. Then it keeps
// its Hasher alive until its derivation ends.
func TestContexts(t *testing.T) {
	const soon, late = 10 * time.Millisecond, time.Hour
	goroutines := runtime.NumGoroutine()
	for why, it := range map[string]struct {
		isFull, isBusy     bool // no goroutine may be in C; another call derives
		text               string
		deadline, canceled time.Duration
		want               error
	}{
		"not at all":                    {false, false, noHash, late, late, ErrMismatch},
		"before the call":               {false, false, costly, -1, late, context.DeadlineExceeded},
		"a hash that is rejected":       {true, false, strings.Replace(costly, "17", "30", 1), soon, late, ErrTooCostly},
		"outside of C":                  {true, false, noHash, late, soon, context.Canceled},
		"waiting in C":                  {false, true, noHash, late, soon, context.Canceled},
		"waiting in C until a deadline": {false, true, noHash, soon, late, context.DeadlineExceeded},
		"deriving":                      {false, false, costly, late, soon, context.Canceled},
		"deriving at a deadline":        {false, false, costly, soon, late, context.DeadlineExceeded},
	} {
		derives, isEarly := it.isBusy || it.text == costly && it.deadline > 0, false
		for tries := time.Duration(1); derives != isEarly || tries == 1; tries++ { // on a loaded machine it may begin too late
			hasher := newHasher(t, small)
			inside := hasher.shared.inside
			if it.isBusy {
				busy(t, hasher)
			} else if it.isFull {
				hasher.shared.inside = nil
			}
			ctx, cancel := context.WithTimeout(ctx, tries*it.deadline)
			time.AfterFunc(tries*it.canceled, cancel)
			err := hasher.Verify(ctx, it.text, nil)
			isEarly = hasher.Stats().Deriving > 0
			isEnded := it.deadline > 0 || hasher.shared.calls.Load() == 0
			check(t, errors.Is(err, it.want) && isEnded && tries < 10, why, err, tries)
			cancel()
			wait(func() bool { runtime.GC(); return len(inside) == 0 && runtime.NumGoroutine() <= goroutines })
		}
	}
}

// A call waits for Timeout, outside of C and in it, unless its context has a deadline; a derivation
// that has begun runs on.
func TestTimeout(t *testing.T) {
	far, cancel := context.WithTimeout(ctx, time.Hour)
	defer cancel()
	for _, isFull := range []bool{true, false} {
		hasher := newHasher(t, Options{Params: small.Params, MaxTables: 1, Timeout: 20 * time.Millisecond})
		inside, filled := hasher.shared.inside, 0
		derived := make(chan error)
		go func() { derived <- hasher.Verify(ctx, costly, nil) }()
		wait(func() bool { return hasher.Stats().Deriving > 0 })
		for ; isFull && len(inside) < cap(inside); filled++ {
			inside <- struct{}{}
		}
		err := hasher.Verify(ctx, noHash, nil)
		check(t, err == context.DeadlineExceeded && hasher.Stats() == Stats{0, 1, 1}, isFull, err, hasher.Stats())
		for ; filled > 0; filled-- {
			<-inside
		}
		check(t, hasher.Verify(far, noHash, nil) == ErrMismatch && <-derived == ErrMismatch, "a deadline wins, and it derives on")
	}
}

// A call has its own copy of the password, which is wiped. In C it waits until its deadline.
func TestRun(t *testing.T) {
	hasher, password, own := newHasher(t, small), []byte("pw"), []byte{}
	bounded, cancel := context.WithTimeout(ctx, time.Hour)
	defer cancel()
	for ctx, least := range map[context.Context]milliseconds{ctx: -1, bounded: 3590000} {
		err := hasher.run(ctx, password, func(secret []byte, ms milliseconds) status {
			own = secret
			check(t, ms >= least && ms <= least+10001 && (ms < 0) == (least < 0), ms, least)
			return 0
		})
		wait(func() bool { return hasher.shared.calls.Load() == 0 })
		check(t, err == nil && string(password) == "pw" && string(own) == "\x00\x00", err, password, own)
	}
	check(t, hasher.run(ctx, nil, func([]byte, milliseconds) status { return timedOut }) == context.DeadlineExceeded, "TIMEOUT")
}

// merged has its own Done, and the Err of another context, as code that merges two contexts may.
type merged struct {
	context.Context
	done chan struct{}
}

func (it merged) Done() <-chan struct{} { return it.done }

// A context that is done without an error, against its contract, ends a call with an error.
func TestDoneWithoutError(t *testing.T) {
	hasher, done := newHasher(t, small), make(chan struct{})
	time.AfterFunc(10*time.Millisecond, func() { close(done) })
	for _, why := range []string{"deriving", "before it derives"} {
		err := hasher.Verify(merged{ctx, done}, costly, nil)
		check(t, err == context.Canceled, why, err)
	}
}

// Stats counts calls that wait, derive and fail. Close ends the calls that wait.
func TestStats(t *testing.T) {
	hasher := newHasher(t, Options{Params{LogN: 4}, false, 0, 1, 0, math.MaxUint64, math.MaxUint64, 0, 0, 0})
	check(t, hasher.Verify(ctx, huge, nil) == ErrOutOfMemory && hasher.Verify(ctx, "$7$", nil) == ErrEncodingInvalid)
	busy(t, hasher)
	canceled, cancel := context.WithCancel(ctx)
	ended := make(chan error)
	for i := 0; i < 20; i++ {
		go func(ctx context.Context) { ended <- hasher.Verify(ctx, noHash, nil) }([]context.Context{ctx, canceled}[i%2])
	}
	wait(func() bool { return hasher.Stats() == Stats{20, 1, 1} })
	cancel()
	for i := 0; i < 20; i++ {
		if i == 10 {
			_ = hasher.Close()
		}
		err := <-ended
		check(t, i < 10 && err == context.Canceled || i >= 10 && err == ErrClosed, i, err)
	}
	wait(func() bool { return hasher.Stats() == Stats{Failed: 11} })
}

// If MaxWaiting calls wait, in C and in Go, the next one returns at once.
func TestMaxWaiting(t *testing.T) {
	for _, most := range []int{1, 2, perSlot, 3 * perSlot} { // the last wait outside of C too
		hasher := newHasher(t, Options{Params: Params{LogN: 4}, MaxTables: 1, MaxWaiting: most})
		busy(t, hasher)
		ended := make(chan error, most)
		for i := 0; i < most; i++ {
			go func() { ended <- hasher.Verify(ctx, noHash, nil) }()
		}
		wait(func() bool { return hasher.Stats() == Stats{most, 1, 0} })
		_, err := hasher.Hash(ctx, nil)
		check(t, err == ErrBusy && hasher.Stats() == Stats{most, 1, 1}, err, hasher.Stats())
		for i := 0; i < most; i++ {
			check(t, <-ended == ErrMismatch, i)
		}
		check(t, hasher.Verify(ctx, noHash, nil) == ErrMismatch, "a place is free")
	}
	_, err := NewHasher(Options{MaxWaiting: -1})
	check(t, errors.Is(err, ErrInvalidOption), err)
}

// A Hasher keeps at most MaxTables tables, until Close or until nothing refers to it. KeyContext keeps
// none.
func TestMemory(t *testing.T) {
	resident := func() (pages int) {
		data, err := os.ReadFile("/proc/self/statm")
		if err != nil {
			t.Skip(err) // Windows does not have it
		}
		_, _ = fmt.Sscan(string(data), new(int), &pages)
		return pages * os.Getpagesize() >> 20
	}
	before, hashers := resident(), [2]*Hasher{}
	_, _ = KeyContext(ctx, nil, nil, 1<<17, 8, 2, 32, nil)
	check(t, resident() < before+64, "128 MiB are freed")
	for i := range hashers {
		hashers[i] = newHasher(t, Options{Params: Params{LogN: 16, P: 4}, MaxTables: 1, Processors: 4})
		_, _ = hashers[i].Hash(ctx, nil)
	}
	held := resident()
	_ = hashers[0].Close()
	closed := resident()
	check(t, held < before+160 && closed < held-48, "2 tables of 64 MiB, and 1", held-before, closed-before)
	runtime.KeepAlive(hashers)
	wait(func() bool { runtime.GC(); return resident() < closed-48 })
}
