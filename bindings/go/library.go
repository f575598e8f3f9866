package scrypt

// #include "library.h"
import "C"

import (
	"math"
	"unsafe"
)

// failed returns the error of a status, or nil if it is SCRYPT_OK.
func failed(status C.int) error {
	if status == C.SCRYPT_OK {
		return nil
	}
	return Error(status)
}

// number returns n, or math.MaxUint32 if n does not fit in 32 bits. The library does not accept
// that for any parameter.
func number(n int) C.uint32_t {
	if n < 0 || n > math.MaxUint32 {
		return math.MaxUint32
	}
	return C.uint32_t(n)
}

// explained returns the numbers of a status, in words.
func explained(status C.int, cost C.scrypt_cost, maxMem C.size_t, maxWork C.uint64_t, minKeyLen C.size_t) string {
	text := make([]byte, C.SCRYPT_EXPLANATION_CAPACITY)
	C.scrypt_explain(status, &cost, maxMem, maxWork, minKeyLen, chars(text), size(text))
	return C.GoString(chars(text))
}

var none [1]byte

// bytes returns a pointer to the first byte. It is never NULL, which would mean a random salt.
func bytes(b []byte) *C.uint8_t {
	if len(b) == 0 {
		b = none[:]
	}
	return (*C.uint8_t)(unsafe.Pointer(&b[0]))
}

func chars(b []byte) *C.char { return (*C.char)(unsafe.Pointer(bytes(b))) }

func pointer(b []byte) unsafe.Pointer { return unsafe.Pointer(bytes(b)) }

func size(b []byte) C.size_t { return C.size_t(len(b)) }
