#!/bin/sh
sleep 100 &
echo $!
wait
