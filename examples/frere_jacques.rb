play 60
sleep 1
play 62
sleep 1
play 64
sleep 1
play 60
sleep 1

play 60
sleep 1
play 62
sleep 1
play 64
sleep 1
play 60
sleep 1

play 64
sleep 1
play 65
sleep 1
play 67
sleep 2

play 64
sleep 1
play 65
sleep 1
play 67
sleep 2

play 67
sleep 0.5
play 69
sleep 0.5
play 67
sleep 0.5
play 65
sleep 0.5
play 64
sleep 1
play 60
sleep 1

play 67
sleep 0.5
play 69
sleep 0.5
play 67
sleep 0.5
play 65
sleep 0.5
play 64
sleep 1
play 60
sleep 1

play 60
sleep 1
play 55
sleep 1
play 60
sleep 2

play 60
sleep 1
play 55
sleep 1
play 60
sleep 2
