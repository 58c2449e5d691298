"""Shaping a text in a font file: conversion with a cache, and the program."""
