# Settings of the build: the Makefile beside this file includes them.
CC = gcc # c
CXX = g++ # c++
CFLAGS = -O2 -Wall -Wextra

# Where `make install` puts the program; packages use /usr.
PREFIX   = /usr/local
BINDIR   = bin
