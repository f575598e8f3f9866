//go:build !cgo

package scrypt

// Without cgo, only this file is compiled, so that the compiler's error gives the reason.
var _ = scrypt_needs_cgo__CGO_ENABLED_1_and_a_C_compiler
