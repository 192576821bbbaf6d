#!/usr/bin/env python3
"""Prints a block table of N customers, of whom one in twenty has two cities: python3 many.py N > many.csv"""
import sys

CITIES = ("Bergen", "Drammen", "Hamar", "Lillehammer", "Moss", "Oslo", "Stavanger", "Trondheim")


def city(number):
    return CITIES[number * number % 97 % len(CITIES)]


print("_block,_role,id:int,city:text,spent:int")
for number in range(1, int(sys.argv[1]) + 1):
    print(f"{number},guess,{number},{city(number)},{number % 50 * 10}")
    if number % 20 == 0:
        print(f"{number},alt,{number},{city(number // 20 + 1)},{number % 50 * 10}")
