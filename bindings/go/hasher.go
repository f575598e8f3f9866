package scrypt

// #include "library.h"
import "C"

import (
	"context"
	"fmt"
	"runtime"
	"sync/atomic"
	"time"
	"unsafe"
)

// mostInside is the maximum number of goroutines in C, whatever the options are: Go ends a program
// that has 10,000 threads.
const mostInside = 4096

// perSlot is the maximum number of goroutines in C for each slot: those of a batch that derives, and
// those of the next one.
const perSlot = 2 * C.SCRYPT_MAX_LOGINS

// Names for tests, which cannot use cgo.
type (
	milliseconds = C.int64_t
	status       = C.int
)

const timedOut = status(C.SCRYPT_E_TIMEOUT)

// Options are the options of a Hasher. A zero option, or a zero field of Params, means the default
// that its comment names.
type Options struct {
	Params       // the parameters of new hashes: by default those of Recommended()
	MCF     bool // whether new hashes are $7$ hashes of crypt(5); by default they are PHC strings
	SaltLen int  // the length of a new hash's salt, 1 to 64 bytes: by default 16

	// The maximum number of tables: by default two for each CPU, or the number of tables of
	// MaxMem that fit in 7/8 of the memory, if that is less.
	MaxTables int

	// The number of slots, that is, of concurrent derivations: by default the number of CPUs
	// that the affinity and the CPU quota of the process allow, or runtime.GOMAXPROCS(0) if that
	// is less.
	Processors int

	// The limits on Params.Memory and Params.Work, above which a hash returns ErrTooCostly: by
	// default those of DefaultLimits, for MaxMem 7/8 of the memory if that is less, or the cost of
	// new hashes if that is more.
	MaxMem, MaxWork uint64

	// The limit on the length of a hash's key in bytes, up to Params.KeyLen, below which a hash
	// returns ErrKeyTooShort: by default that of DefaultLimits, or KeyLen if that is less.
	MinKeyLen int

	// The maximum number of calls that wait for a slot: by default 1000. The next one returns ErrBusy
	// immediately.
	MaxWaiting int

	// The maximum time that a call waits for a slot, unless its context has a deadline: by default
	// no limit. Then it returns context.DeadlineExceeded, as at a deadline; but its derivation, once
	// begun, does not end.
	Timeout time.Duration
}

// A Hasher makes password hashes, and verifies passwords against hashes of either format. It is
// safe for concurrent use by multiple goroutines. Calls wait in FIFO order for one of Processors
// slots, and return ErrBusy if MaxWaiting calls wait already. Waiting verifications with the same
// LogN, R and P are derived in one batch if there are tables for them, which takes less time on some
// CPUs. An error or a context of one call does not affect the others.
//
// A call whose context is done returns the context's error immediately. If it has entered C, as up
// to eight calls for each slot have, its derivation may still run, on a copy of the password that is
// wiped afterwards. None starts after the deadline of the context, and the error is then
// context.DeadlineExceeded, which the Err of the context can return a moment later.
//
// A Hasher holds at most MaxTables tables, whatever P is, and keeps their memory for later calls
// until Close. Create a Hasher with NewHasher: all methods of the zero value that return an error
// return ErrClosed, except Close.
type Hasher struct {
	shared *hasher
}

// A hasher is freed when no Hasher and no call refers to it.
type hasher struct {
	c       *C.scrypt_hasher
	inside  chan struct{} // a counting semaphore: each goroutine in C takes a system thread
	calls   atomic.Int64  // how many calls wait or derive
	refused atomic.Uint64 // how many calls failed: out of memory, too many waiting, or their context ended
	slots   int64
	waiting int64 // the maximum number of calls that wait
	timeout time.Duration
}

// NewHasher returns a Hasher. Its errors show the options, and match (errors.Is) ErrInvalidParams,
// ErrSaltInvalid, ErrInvalidOption, ErrTooCostly if new hashes exceed the limits, or
// ErrOutOfMemory.
func NewHasher(options Options) (*Hasher, error) {
	usual := Recommended()
	options.LogN = orDefault(options.LogN, usual.LogN)
	options.R = orDefault(options.R, usual.R)
	options.P = orDefault(options.P, usual.P)
	if options.MaxTables < 0 || options.Processors < 0 || options.MinKeyLen < 0 || options.MaxWaiting < 0 ||
		options.Timeout < 0 {
		return nil, fmt.Errorf("%w: %+v", ErrInvalidOption, options)
	}
	var with C.scrypt_options
	C.scrypt_options_init(&with)
	with.log_n, with.r, with.p = number(options.LogN), number(options.R), number(options.P)
	set := func(field *C.size_t, value uint64) {
		if value != 0 {
			*field = C.size_t(value)
		}
	}
	set(&with.key_len, uint64(options.KeyLen))
	set(&with.salt_len, uint64(options.SaltLen))
	set(&with.max_mem, options.MaxMem)
	set(&with.max_tables, uint64(options.MaxTables))
	set(&with.processors, uint64(options.Processors))
	set(&with.min_key_len, uint64(options.MinKeyLen))
	if options.MaxWork != 0 {
		with.max_work = C.uint64_t(options.MaxWork)
	}
	if options.MCF {
		with.mcf = 1
	}
	shared := &hasher{waiting: int64(orDefault(options.MaxWaiting, 1000)), timeout: options.Timeout}
	with.max_waiting = ^C.size_t(0) // run counts those that wait in Go and in C
	status := C.scrypt_hasher_new(&with, &shared.c)
	most := C.size_t(runtime.GOMAXPROCS(0))
	if status == C.SCRYPT_OK && options.Processors == 0 && most < C.scrypt_hasher_options(shared.c).processors {
		C.scrypt_hasher_free(&shared.c)
		with.processors = most
		status = C.scrypt_hasher_new(&with, &shared.c)
	}
	if status != C.SCRYPT_OK {
		return nil, fmt.Errorf("%w: %v: %+v", Error(status), options.Params.cost(), options)
	}
	derive := C.scrypt_hasher_options(shared.c).processors
	if tables := C.scrypt_hasher_options(shared.c).max_tables; tables < derive {
		derive = tables
	}
	shared.slots = int64(derive)
	if derive > mostInside/perSlot {
		derive = mostInside / perSlot
	}
	shared.inside = make(chan struct{}, perSlot*derive)
	runtime.SetFinalizer(shared, func(shared *hasher) { C.scrypt_hasher_free(&shared.c) })
	return &Hasher{shared}, nil
}

// Options returns the options of the Hasher, with each default replaced by its value. For the zero
// value of a Hasher all are zero.
func (h *Hasher) Options() Options {
	if h.shared == nil {
		return Options{}
	}
	defer runtime.KeepAlive(h.shared)
	with := C.scrypt_hasher_options(h.shared.c)
	return Options{
		Params:  Params{LogN: int(with.log_n), R: int(with.r), P: int(with.p), KeyLen: int(with.key_len)},
		MCF:     with.mcf != 0,
		SaltLen: int(with.salt_len), MaxTables: int(with.max_tables), Processors: int(with.processors),
		MaxWaiting: int(h.shared.waiting),
		MaxMem:     uint64(with.max_mem), MaxWork: uint64(with.max_work), MinKeyLen: int(with.min_key_len),
		Timeout: h.shared.timeout,
	}
}

// Close frees the memory that the Hasher keeps; the memory of a running derivation is freed when it
// ends. Waiting and later calls return ErrClosed. Close always returns nil.
func (h *Hasher) Close() error {
	if h.shared != nil {
		C.scrypt_hasher_close(h.shared.c)
		runtime.KeepAlive(h.shared)
	}
	return nil
}

// Hash returns a new hash, with a random salt from the system. Its errors are the context's error,
// ErrOutOfMemory, ErrNoRandomBytes, ErrBusy and ErrClosed.
func (h *Hasher) Hash(ctx context.Context, password []byte) (string, error) {
	return h.hash(ctx, password, nil)
}

// HashWithSalt is like Hash, with the caller's salt. It returns ErrSaltInvalid if the salt
// of a PHC hash does not have 1 to 64 bytes.
func (h *Hasher) HashWithSalt(ctx context.Context, password, salt []byte) (string, error) {
	return h.hash(ctx, password, append([]byte{}, salt...))
}

// hash generates a salt if salt is nil.
func (h *Hasher) hash(ctx context.Context, password, salt []byte) (string, error) {
	var at unsafe.Pointer
	if salt != nil {
		at = pointer(salt)
	}
	text := make([]byte, C.SCRYPT_PHC_CAPACITY+2*len(salt)) // for either format
	err := h.run(ctx, password, func(password []byte, ms milliseconds) status {
		return C.scrypt_hasher_hash(h.shared.c, pointer(password), size(password), at, size(salt),
			chars(text), size(text), ms)
	})
	if err != nil {
		return "", err
	}
	return C.GoString(chars(text)), nil
}

// Key derives a key of keyLen bytes from a password and a salt, with the parameters of new hashes.
// It returns the errors of Hash, and ErrInvalidOutputLen.
func (h *Hasher) Key(ctx context.Context, password, salt []byte, keyLen int) ([]byte, error) {
	key, err := newKey(keyLen)
	if err != nil {
		return nil, err
	}
	salt = append([]byte{}, salt...)
	err = h.run(ctx, password, func(password []byte, ms milliseconds) status {
		return C.scrypt_hasher_key(h.shared.c, pointer(password), size(password), pointer(salt),
			size(salt), bytes(key), size(key), ms)
	})
	if err != nil {
		return nil, err
	}
	return key, nil
}

// Verify returns nil if the password matches the hash, and ErrMismatch if it does not. For an
// unknown user, pass "" as the text: Verify takes the time of a wrong password for a new hash, and
// returns ErrMismatch. While hashes of older parameters are stored, their time tells who exists:
// see docs/HASHER.md of the repository.
//
// Other errors match (errors.Is) the context's error, ErrClosed, ErrBusy or ErrOutOfMemory. If the hash is
// rejected, Verify returns, without waiting, an error that matches ErrRejected: ErrInvalidHash,
// ErrTooCostly if the hash exceeds the limits, or ErrKeyTooShort if its key has fewer bytes than
// MinKeyLen.
func (h *Hasher) Verify(ctx context.Context, text string, password []byte) error {
	if h.shared == nil {
		return ErrClosed
	}
	raw := []byte(text)
	if err := h.refusal(raw); err != nil {
		return err
	}
	return h.run(ctx, password, func(password []byte, ms milliseconds) status {
		at := chars(raw)
		if len(raw) == 0 {
			at = nil
		}
		return C.scrypt_hasher_verify(h.shared.c, pointer(password), size(password), at, size(raw), nil, ms)
	})
}

// refusal returns the error of a hash that is rejected, with its cost; nil for an empty text.
func (h *Hasher) refusal(text []byte) error {
	if len(text) == 0 {
		return nil
	}
	defer runtime.KeepAlive(h.shared)
	var cost C.scrypt_cost
	with := C.scrypt_hasher_options(h.shared.c)
	status := C.scrypt_hash_cost(chars(text), size(text), with.max_mem, with.max_work,
		with.min_key_len, &cost)
	if status == C.SCRYPT_E_TOO_COSTLY || status == C.SCRYPT_E_KEY_TOO_SHORT {
		return fmt.Errorf("%w: %s", Error(status),
			explained(status, cost, with.max_mem, with.max_work, with.min_key_len))
	}
	return failed(status)
}

// VerifyAndUpdate is like Verify. If the password matches, and the hash is weaker than new hashes, it
// also returns a new hash to store in its place, and otherwise "". Its errors are those of
// Verify and, for the new hash, of Hash.
func (h *Hasher) VerifyAndUpdate(ctx context.Context, text string, password []byte) (newText string, err error) {
	if err := h.Verify(ctx, text, password); err != nil {
		return "", err
	}
	if isWeak, err := h.NeedsRehash(text); err != nil || !isWeak {
		return "", err
	}
	return h.Hash(ctx, password)
}

// NeedsRehash reports whether a parameter of the hash, or the length of its key, is smaller than in
// new hashes. Its errors match ErrInvalidHash (errors.Is), or ErrClosed for the zero Hasher. It
// needs no memory, so it also works on a closed Hasher.
func (h *Hasher) NeedsRehash(text string) (bool, error) {
	if h.shared == nil {
		return false, ErrClosed
	}
	raw := []byte(text)
	status := C.scrypt_hasher_needs_rehash(h.shared.c, chars(raw), size(raw))
	runtime.KeepAlive(h.shared)
	if status == C.SCRYPT_NEEDS_REHASH {
		return true, nil
	}
	return false, failed(status)
}

// run acquires the semaphore and makes a call in C, which waits until the deadline of the context, or
// that of Timeout if it has none. When the context is done, run returns, and the call continues with
// its own copy of the password.
func (h *Hasher) run(ctx context.Context, password []byte,
	call func(password []byte, ms milliseconds) status) error {
	if h.shared == nil {
		return ErrClosed
	}
	if err := ctx.Err(); err != nil {
		return err
	}
	// The context's methods, which can panic, are called before anything is acquired.
	shared, done := h.shared, ctx.Done()
	end, isBounded := ctx.Deadline()
	var late <-chan time.Time
	if !isBounded && shared.timeout > 0 {
		end, isBounded = time.Now().Add(shared.timeout), true
		timer := time.NewTimer(shared.timeout)
		defer timer.Stop()
		late = timer.C
	}
	if shared.isFull(shared.calls.Add(1)) {
		shared.calls.Add(-1)
		shared.refused.Add(1)
		return ErrBusy
	}
	if err := shared.acquire(ctx, done, late); err != nil {
		shared.calls.Add(-1)
		shared.refused.Add(1)
		return err
	}
	leave := func() {
		<-shared.inside
		shared.calls.Add(-1) // also keeps it alive
	}
	ended := make(chan status, 1)
	go func(password []byte, ms milliseconds) {
		defer leave()
		defer wipe(password)
		ended <- call(password, ms)
	}(append([]byte{}, password...), left(end, isBounded))
	select {
	case got := <-ended:
		if got == timedOut || got == C.SCRYPT_E_OUT_OF_MEMORY {
			shared.refused.Add(1)
		}
		if got == timedOut {
			return context.DeadlineExceeded
		}
		return failed(got)
	case <-done:
		shared.refused.Add(1)
		return endOf(ctx)
	}
}

// endOf returns the error of a context that is done. It is never nil, which would be a result, even
// if a type of the caller has its own Done and the Err of another context.
func endOf(ctx context.Context) error {
	if err := ctx.Err(); err != nil {
		return err
	}
	return context.Canceled
}

// left returns the timeout of a call in C, in milliseconds; a negative one means no timeout.
func left(end time.Time, isBounded bool) milliseconds {
	if !isBounded {
		return -1
	}
	if ms := milliseconds(time.Until(end)/time.Millisecond + 1); ms > 0 {
		return ms
	}
	return 0
}

// wipe overwrites the secret with zeros.
func wipe(secret []byte) {
	for i := range secret {
		secret[i] = 0
	}
	runtime.KeepAlive(secret)
}

func orDefault(n, usual int) int {
	if n == 0 {
		return usual
	}
	return n
}
