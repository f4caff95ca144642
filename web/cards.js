// The faces of the cards as drawings, each once, for every place that shows it.
(function (root) {
  'use strict';

  // The four suits in a box of 20 by 20.
  const shapes = [
    'M10 1 C7 6 1.5 8.6 1.5 13 C1.5 15.8 3.6 17.3 5.8 17.3 C7.4 17.3 8.6 16.5 9.2 15.3 C9 17.2 8.3 18.4 7 19.4 L13 19.4 C11.7 18.4 11 17.2 10.8 15.3 C11.4 16.5 12.6 17.3 14.2 17.3 C16.4 17.3 18.5 15.8 18.5 13 C18.5 8.6 13 6 10 1 Z',
    'M10 18.6 C7.4 14.6 1.4 11.6 1.4 6.6 C1.4 3.6 3.6 1.6 6 1.6 C7.9 1.6 9.4 2.8 10 4.6 C10.6 2.8 12.1 1.6 14 1.6 C16.4 1.6 18.6 3.6 18.6 6.6 C18.6 11.6 12.6 14.6 10 18.6 Z',
    'M10 0.8 C11.8 4.2 14.4 7.4 17.2 10 C14.4 12.6 11.8 15.8 10 19.2 C8.2 15.8 5.6 12.6 2.8 10 C5.6 7.4 8.2 4.2 10 0.8 Z',
    'M10 1 C12.4 1 14.2 2.8 14.2 5 C14.2 6.6 13.4 7.7 12.3 8.6 C13 8.3 13.8 8.1 14.6 8.1 C16.9 8.1 18.7 9.9 18.7 12.2 C18.7 14.5 16.9 16.3 14.6 16.3 C12.9 16.3 11.5 15.3 10.8 14 C11 16.6 11.6 18.2 13.2 19.4 L6.8 19.4 C8.4 18.2 9 16.6 9.2 14 C8.5 15.3 7.1 16.3 5.4 16.3 C3.1 16.3 1.3 14.5 1.3 12.2 C1.3 9.9 3.1 8.1 5.4 8.1 C6.2 8.1 7 8.3 7.7 8.6 C6.6 7.7 5.8 6.6 5.8 5 C5.8 2.8 7.6 1 10 1 Z',
  ];
  const inks = ['#16181d', '#b3232b', '#b3232b', '#16181d'];
  const ranks = ['A', '2', '3', '4', '5', '6', '7', '8', '9', '10', 'J', 'Q', 'K'];

  // Where the pips of two to ten stand: column 0 to 2, and how far down, in parts of 12.
  const pips = {
    2: [[1, 0], [1, 12]],
    3: [[1, 0], [1, 6], [1, 12]],
    4: [[0, 0], [2, 0], [0, 12], [2, 12]],
    5: [[0, 0], [2, 0], [1, 6], [0, 12], [2, 12]],
    6: [[0, 0], [2, 0], [0, 6], [2, 6], [0, 12], [2, 12]],
    7: [[0, 0], [2, 0], [1, 3], [0, 6], [2, 6], [0, 12], [2, 12]],
    8: [[0, 0], [2, 0], [1, 3], [0, 6], [2, 6], [1, 9], [0, 12], [2, 12]],
    9: [[0, 0], [2, 0], [0, 4], [2, 4], [1, 6], [0, 8], [2, 8], [0, 12], [2, 12]],
    10: [[0, 0], [2, 0], [1, 2], [0, 4], [2, 4], [0, 8], [2, 8], [1, 10], [0, 12], [2, 12]],
  };

  const pip = (suit, x, y, size, turned) =>
    `<path d="${shapes[suit]}" transform="translate(${x} ${y}) scale(${size / 20})${turned ? ' rotate(180)' : ''} translate(-10 -10)"/>`;

  function corner(suit, rank) {
    const wide = rank === 9 ? ' textLength="16" lengthAdjust="spacingAndGlyphs"' : '';
    return `<text x="11.5" y="19" text-anchor="middle" class="index"${wide}>${ranks[rank]}</text>${pip(suit, 11.5, 28.5, 11)}`;
  }

  function middle(suit, rank) {
    if (rank === 0) return pip(suit, 40, 56, 34);
    if (rank > 9) {
      return (
        `<rect x="21" y="14" width="38" height="84" rx="3" fill="none" stroke="${inks[suit]}" stroke-opacity=".35"/>` +
        `<text x="40" y="68" text-anchor="middle" class="court">${ranks[rank]}</text>` + pip(suit, 30, 25, 13) + pip(suit, 50, 87, 13, true)
      );
    }
    return pips[rank + 1].map(([column, down]) => pip(suit, 25 + 15 * column, 24 + (64 * down) / 12, 14.5, down > 6)).join('');
  }

  function face(card) {
    const suit = Math.floor(card / 13);
    const rank = card % 13;
    return (
      `<symbol id="card-${card}" viewBox="0 0 80 112"><rect x=".5" y=".5" width="79" height="111" rx="7" fill="#fbfaf4" stroke="#b9b6a8"/>` +
      `<g fill="${inks[suit]}">${middle(suit, rank)}${corner(suit, rank)}<g transform="rotate(180 40 56)">${corner(suit, rank)}</g></g></symbol>`
    );
  }

  const back =
    '<pattern id="weave" width="8" height="8" patternUnits="userSpaceOnUse" patternTransform="rotate(45)"><rect width="8" height="8" fill="#6d1f2b"/>' +
    '<path d="M0 4 H8 M4 0 V8" stroke="#8d3442" stroke-width="1.6"/></pattern>' +
    '<symbol id="card-back" viewBox="0 0 80 112"><rect x=".5" y=".5" width="79" height="111" rx="7" fill="#fbfaf4" stroke="#b9b6a8"/>' +
    '<rect x="5" y="5" width="70" height="102" rx="4" fill="url(#weave)" stroke="#571822"/></symbol>';

  // All of them, to be put into the page once.
  const drawings = () => Array.from({ length: 52 }, (_, card) => face(card)).join('') + back + shapes.map((d, suit) => `<symbol id="suit-${suit}" viewBox="0 0 20 20"><path d="${d}" fill="currentColor"/></symbol>`).join('');

  const Cards = { drawings };
  if (typeof module !== 'undefined') module.exports = Cards;
  else root.Cards = Cards;
})(typeof self !== 'undefined' ? self : this);
