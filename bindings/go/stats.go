package scrypt

// #include "library.h"
import "C"

import (
	"context"
	"runtime"
	"time"
)

// Stats are the statistics of a Hasher.
type Stats struct {
	Waiting, Deriving int    // how many calls wait for a slot, and derive, now
	Failed            uint64 // how many calls ran out of memory or returned ErrBusy, or whose context ended
}

// Stats returns the current statistics, for metrics; it cannot fail. For the zero value of a Hasher
// all are zero.
func (h *Hasher) Stats() Stats {
	if h.shared == nil {
		return Stats{}
	}
	deriving := h.shared.deriving()
	waiting := h.shared.calls.Load() - deriving // includes calls that are not in C
	if waiting < 0 {
		waiting = 0
	}
	return Stats{int(waiting), int(deriving), h.shared.refused.Load()}
}

// deriving returns how many calls derive.
func (h *hasher) deriving() int64 {
	now := C.scrypt_stats{size: C.sizeof_scrypt_stats}
	_ = C.scrypt_hasher_stats(h.c, &now) // its only errors are for NULL, and for the size
	runtime.KeepAlive(h)
	return int64(now.deriving)
}

// isFull returns whether the last of this number of calls may not wait. While a slot is free, some of
// them are about to derive.
func (h *hasher) isFull(calls int64) bool {
	return calls-h.slots > h.waiting && calls-h.deriving() > h.waiting
}

// acquire acquires the semaphore, until the context is done, or it is late.
func (h *hasher) acquire(ctx context.Context, done <-chan struct{}, late <-chan time.Time) error {
	select {
	case h.inside <- struct{}{}:
	case <-done:
		return endOf(ctx)
	case <-late:
		return context.DeadlineExceeded
	}
	select {
	case <-done:
		<-h.inside
		return endOf(ctx)
	default:
		return nil
	}
}
