// The rehearsed hands, a click each, as scripts (web/script.js). Every figure that the page shows of them is the engine's.
(function (root) {
  'use strict';

  // A house of one deck and six seats, for most hands.
  const deck = 'O 6110401010111 0   2       100     six seats, one deck in a shoe';

  const Gallery = [
    {
      name: 'Four split sevens',
      about: 'one of them doubled, the shoe on its last card',
      script: `
o . 1                Aa5a6a8a9aTaJaAb2b3b4b5b6b8b9bTbJbQbKbAc2c3c4c5c6c8c9cTcJcQcKcAd2d3d4d5d6d8dJdQdKd7a9d7b7c7d3a4aKaQa2aTd
${deck}
f   5000             The tray is filled
b 0 100              Six guests buy
b 1 100
b 2 100
b 3 100
b 4 100
b 5 100
s 0 10               The shoe is run down
s 1 10
s 2 10
s 3 10
s 4 10
s 5 10
D
V
s 0 10
s 1 10
s 2 10
s 3 10
s 4 10
s 5 10
D
V
s 0 10
s 1 10
s 2 10
s 3 10
D
V
s 0 10
s 1 10
D
V
S
s 2 20               Seat 2 stakes 20
D                    Two sevens against a nine
p 2                  Each seven gets another
p 2                  Split again: a three and a four
n 2                  The first hand stands
2 2                  Seven and four are doubled: a king
p 2                  The other pair is split: four hands, and one card left
M
n 2                  The third hand stands
n 2                  The fourth hand stands
C                    The bank takes the last card, a ten`,
    },
    {
      name: 'A natural against an ace',
      about: 'insurance and even',
      script: `
o . 1                2aAaAb9aAcKaQb8bKd
${deck}
f   5000             The tray is filled
b 1 100              Seat 1 buys
b 2 100              Seat 2 buys
b 3 100              Seat 3 buys
s 1 20               Seat 1 stakes 20
s 2 20               Seat 2 stakes 20
s 3 20               Seat 3 stakes 20
S
D                    Two naturals and a 17 against an ace: insurance is open
i 1 10               Seat 1 insures its natural
i 3 10               Seat 3 insures its 17
M
n 1                  Seat 1 stays with its natural
e 2                  Seat 2 takes even: its stake at once
n 3                  Seat 3 stands on 17
C                    The bank has a natural: insurances win 2 to 1, even is paid, a natural ties`,
    },
    {
      name: 'Three guests on one seat',
      about: 'the largest stake decides',
      script: `
o . 1                2a7a6b7b7cTd7d9c5c5a8b6a4c
O 6110401010112 0   2       100     the largest stake decides
f   10000            The tray is filled
b 0 100              The seated guest buys
b 01100              A second guest buys
b 02200              A third guest buys
s 0 20               The seated guest stakes first
s 0110               The second guest stakes 10
s 0240               The third guest stakes 40
A 0110               A side stake of the second guest: any pair
S
D                    Two sevens against a six; the third guest decides
M
n 0                  Refused: the seated guest may not decide
p 02                 Each lays the own stake again
2 02                 Three sevens: each has a prize of three wagers
n 02                 On 17
C                    Pay lines by position, each by the own stake`,
    },
    {
      name: 'Side stakes',
      about: 'a pair, sevens of one suit, more and less than 13',
      script: `
o . 3                2a7a7b6a9a6b7a7b7d9bAd2b7c3bTaTb
O 6310401010111 30  2       100     three decks in a shoe
f   160000           The tray is filled
b 0 60               Four guests buy
b 1 60
b 2 60
b 3 60
s 0 20               Each stakes 20
s 1 20
s 2 20
s 3 20
B 0 10               Seat 0: sevens
B 1 10               Seat 1: sevens
E 2 10               Seat 2: more than 13
F 2 10               Seat 2: less than 13
A 3 10               Seat 3: any pair
E 3 10               Seat 3: more than 13
S
D                    Sevens of one suit twice, six and seven, two nines
p 0                  The next card is an ace: 150 to 1 stays
n 0                  On soft 18
n 0                  On 9
p 1                  The next card is a seven of another suit: 500 to 1
n 1                  On 14
n 1                  On 10
n 2                  On 13
n 3                  On 18
C                    Side stakes are paid: 13 loses both
M`,
    },
    {
      name: 'The box',
      about: 'the bank’s second card lies face down until close',
      script: `
o . 1                3a9aAb8aKb
O 6110401010121 0   2       100     one deck in a metal box
f   1000             The tray is filled
b 2 100              Seat 2 buys
s 2 20               Seat 2 stakes 20
S
D                    Nine and eight against an ace, and a card face down
i 2 10               Seat 2 insures
M
n 2                  On 17
C                    The hidden card is a king: the insurance wins
s 2 20               Seat 2 stakes again
D                    Refused: the box must be loaded first`,
    },
    {
      name: 'A void takes a prize back',
      about: 'three sevens pay at once, a misdeal undoes it',
      script: `
o . 1                2a7a5c7b7c
${deck}
f   2000             The tray is filled
b 2 100              Seat 2 buys
s 2 20               Seat 2 stakes 20
S
D                    Two sevens against a five
d 2                  Three sevens: 60 at once
M
V                    A misdeal: the stake goes back, the prize too`,
    },
    {
      name: 'Seven hands',
      about: 'six rows and one beyond, a second guest on seat 3',
      script: `
o . 1                Kd8a9aTaTbTc9bAa8b9c2a3a4a5a3b4b
${deck}
f   5000             The tray is filled
b 0 100              Seven guests buy
b 1 100
b 2 100
b 3 100
b 4 100
b 5 100
b 3150
s 0 20               Each stakes
s 1 20
s 2 20
s 3 20
s 4 20
s 5 20
S
s 3110               A second guest stakes 10 on seat 3
D                    An ace up: insurance is open
i 315                The second guest of seat 3 insures for 5
p 0                  Seat 0 splits its eights: seven hands
M
n 0                  Seat 0 stands
n 0                  Seat 0 stands
n 1                  Seat 1 stands`,
    },
    {
      name: 'Nine seats, 27 guests',
      about: 'a full table',
      script: full(),
    },
    {
      name: 'Five cards',
      about: 'half the stake at once',
      script: `
o . 1                Ka2a9b3a2b3b4a
O 6110401011111 0   2       100     five cards are on
f   1000             The tray is filled
b 2 100              Seat 2 buys
s 2 20               Seat 2 stakes 20
S
D                    Two and three against a nine
d 2                  A two
d 2                  A three
d 2                  A four: five cards, 14
M
5 2                  The hand leaves with half the stake
C                    Five pays 10`,
    },
    {
      name: 'Split aces',
      about: 'aces may be split again',
      script: `
o . 1                2aAa7cAbAcKaAd9a5aTd
O 6110411010111 0   2       100     aces split again
f   1000             The tray is filled
b 2 100              Seat 2 buys
s 2 20               Seat 2 stakes 20
S
D                    Two aces against a seven
p 2                  Another ace for the first, a king for the second
p 2                  Split again: an ace and a nine
M
d 2                  Refused: split aces take no more cards
p 2                  The fourth hand
C                    21 from a split is no natural`,
    },
    {
      name: 'Surrender',
      about: 'too late once a neighbour has drawn',
      script: `
o . 1                2aTa9a5aTb6a7b6b5d8c7d
${deck}
f   5000             The tray is filled
b 1 100              Three guests buy
b 2 100
b 3 100
s 1 20               Each stakes 20
s 2 20
s 3 20
S
D                    16, 16 and 11 against a ten
u 1                  Seat 1 surrenders
M
d 2                  Seat 2 draws a five: 21
u 3                  Refused: somebody has drawn
2 3                  Seat 3 doubles on 11: an eight
C                    The bank draws`,
    },
    {
      name: 'Twenty cards',
      about: 'ten aces, a two, nine aces',
      script: `
o . 5                KaAa9aAbAcAdAaAbAcAdAaAb2aAcAdAaAbAcAdAaAbAc
O 6510401010111 30  2       100     five decks in a shoe
f   1000             The tray is filled
b 2 100              Seat 2 buys
s 2 20               Seat 2 stakes 20
S
D                    Two aces against a nine
${'d 2                  An ace\n'.repeat(8)}d 2                  A two: 12
${'d 2                  An ace\n'.repeat(9)}M
C                    21 beats the bank`,
    },
    {
      name: 'The shoe ends too soon',
      about: 'only void ends the round',
      script: `
o . 1                Aa2a3a4a5a6a7a9aTaJaQaKaAb2b3b4b5b6b7b9bTbJbQbKbAc2c3c4c6c7c8c9cTcJcQcKcAd2d3d4d5d6d7d8d9dTdJdQd8a5c8bKd
O 9110401010111 0   2       100     nine seats, one deck in a shoe
f   10000            The tray is filled
${Array.from({ length: 9 }, (_, i) => `b ${i} 100`).join('\n')}
${[9, 9, 4].map((n) => Array.from({ length: n }, (_, i) => `s ${i} 20\n`).join('') + 'D\nV').join('\n')}
S
s 2 20               Seat 2 stakes 20
D                    Two eights against a five
p 2                  Refused: a split draws two cards
2 2                  A double draws the last card
C                    Refused: none is left for the bank
M
V                    Only void ends the round`,
    },
    {
      name: 'The marked session',
      about: 'of document 01, call by call',
      script: `
o . 1                51 6 5 19 32 9 45 22 3
${deck}
M
S
f   1000
b 2 100
s 2 20
D
i 2 10
p 2
2 2
n 2
C
n 2`,
    },
    {
      name: 'A table that no opening gave',
      about: 'it is broken: nothing is lit, no hand is shown',
      script: `
o . 1
O 5110401010111 0   2       100     five seats are too few
f   10               Refused: the table is broken`,
    },
  ];

  // Three guests at each of nine seats, eight decks, every guest staked, the first seats split.
  function full() {
    const seats = Array.from({ length: 9 }, (_, i) => i);
    const each = (row) => seats.map((s) => [0, 1, 2].map((p) => row(s, p)).join('\n')).join('\n');
    const cards = '2a8aTa9a6a5aJa7a8cQa6d8bKb3c7cAd9dJc8d3d' + '8d5cTd3cTd8b2c3b9c4d';
    return `
o . 8                ${cards}
O 9810401010111 60  2       100     nine seats, eight decks in a shoe
f   100000           The tray is filled
${each((s, p) => `b ${s}${p}${200 + 50 * p}`)}
${each((s, p) => `s ${s}${p}${[20, 10, 40][p] + 2 * s}`)}
S
D                    Nine hands of three guests each
p 0                  Seat 0 splits its eights
p 0                  And again
n 0                  A hand stands
n 0                  A hand stands
M
n 0                  A hand stands`;
  }

  if (typeof module !== 'undefined') module.exports = Gallery;
  else root.Gallery = Gallery;
})(typeof self !== 'undefined' ? self : this);
