//go:build scrypt_system

package scrypt

// #cgo pkg-config: scrypt_c
import "C"
