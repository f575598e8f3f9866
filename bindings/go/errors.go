package scrypt

// #include "library.h"
import "C"

// An Error is the reason why a call failed: a status of scrypt_c.h, or a negative number that is
// only defined here.
type Error int

const (
	// ErrRejected matches (errors.Is) each error that rejects a stored hash, whatever the password
	// is: ErrTooCostly, ErrKeyTooShort, and all that ErrInvalidHash matches. A login should log it,
	// and respond as to a wrong password.
	ErrRejected Error = -3
	// ErrInvalidOption is for an option of a Hasher that is out of range.
	ErrInvalidOption Error = -2
	// ErrInvalidHash matches (errors.Is) ErrAlgorithm to ErrVersion: the text is not a hash that
	// this package can read.
	ErrInvalidHash Error = -1

	// ErrMismatch means that the password does not match the hash.
	ErrMismatch Error = C.SCRYPT_MISMATCH
	// ErrInvalidParams means that N, r and p, or the length of a hash's key, are not accepted.
	ErrInvalidParams Error = C.SCRYPT_E_INVALID_PARAMS
	// ErrInvalidOutputLen means that the key is empty, or longer than scrypt allows.
	ErrInvalidOutputLen Error = C.SCRYPT_E_INVALID_OUTPUT_LEN
	// ErrOutOfMemory means that the memory is not available.
	ErrOutOfMemory Error = C.SCRYPT_E_OUT_OF_MEMORY
	// ErrSaltInvalid means that the salt of a PHC hash does not have 1 to 64 bytes, or that the salt
	// of a $7$ hash is not UTF-8 without a $.
	ErrSaltInvalid Error = C.SCRYPT_E_SALT_INVALID
	// ErrAlgorithm means that the hash is of another algorithm.
	ErrAlgorithm Error = C.SCRYPT_E_ALGORITHM
	// ErrEncodingInvalid means that the text does not have the grammar of its format.
	ErrEncodingInvalid Error = C.SCRYPT_E_ENCODING_INVALID
	// ErrOutputSize means that the hash has no key, or one that is too long.
	ErrOutputSize Error = C.SCRYPT_E_OUTPUT_SIZE
	// ErrHashParamInvalid means that a parameter in the hash is not a decimal in its range.
	ErrHashParamInvalid Error = C.SCRYPT_E_HASH_PARAM_INVALID
	// ErrHashParamsInvalid means that the parameters in the hash are not accepted, or are not scrypt's.
	ErrHashParamsInvalid Error = C.SCRYPT_E_HASH_PARAMS_INVALID
	// ErrVersion means that the hash has a version field, which scrypt does not define.
	ErrVersion Error = C.SCRYPT_E_VERSION
	// ErrTooCostly means that the hash or parameters exceed the limits on memory or work.
	ErrTooCostly Error = C.SCRYPT_E_TOO_COSTLY
	// ErrNoRandomBytes means that the system has no random bytes for a salt.
	ErrNoRandomBytes Error = C.SCRYPT_E_NO_RANDOM_BYTES
	// ErrKeyTooShort means that the key in the hash is shorter than the limits allow.
	ErrKeyTooShort Error = C.SCRYPT_E_KEY_TOO_SHORT
	// ErrBusy means that MaxWaiting calls wait for a slot of the Hasher already.
	ErrBusy Error = C.SCRYPT_E_BUSY
	// ErrClosed means that the Hasher is closed, or was not created by NewHasher.
	ErrClosed Error = C.SCRYPT_E_CLOSED
)

// Error returns the message of the error.
func (e Error) Error() string {
	switch e {
	case ErrRejected:
		return "scrypt: the stored hash is rejected"
	case ErrInvalidOption:
		return "scrypt: an option of a Hasher is out of range"
	case ErrInvalidHash:
		return "scrypt: the text is not a PHC or $7$ hash of scrypt"
	case ErrClosed:
		return "scrypt: the Hasher is closed, or was not made by NewHasher"
	default:
		return "scrypt: " + C.GoString(C.scrypt_strerror(C.int(e)))
	}
}

// Is reports whether target is this error, or ErrInvalidHash or ErrRejected if that matches it.
func (e Error) Is(target error) bool {
	isInvalid := C.scrypt_status_is_invalid_hash(C.int(e)) != 0
	switch target {
	case ErrInvalidHash:
		return isInvalid || e == ErrInvalidHash
	case ErrRejected:
		return isInvalid || e == ErrTooCostly || e == ErrKeyTooShort || e == ErrRejected
	}
	return target == e
}
