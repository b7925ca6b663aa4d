#!/bin/sh
# A stub: there is nothing to prepare.
