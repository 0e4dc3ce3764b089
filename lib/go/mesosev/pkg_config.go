//go:build !no_pkg_config

package mesosev

// #cgo pkg-config: mesosev
import "C"
