play 60
sleep 0.5
play 64
sleep 0.5
play 67
sleep 0.25
play 72
