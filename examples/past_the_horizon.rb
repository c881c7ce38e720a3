play 36
sleep 59.9
play 38
sleep 0.1
play 40
