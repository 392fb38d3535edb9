// How many questions may still come, if each is answered by right or wrong: the command's rule for its questions, played
// through for both answers. Only a number that is shown hangs on it, and only where its first step is the command's own.

// Of these suspects of a tree, the number in each one's subtree. They rise, so each subtree is a stretch of them.
function weightsOf(tree, suspects) {
  return suspects.map((call, at) => {
    let low = at;
    let high = suspects.length;
    while (high - low > 1) {
      const middle = (low + high) >> 1;
      if (suspects[middle] <= tree.last[call]) low = middle; else high = middle;
    }
    return high - at;
  });
}

// The place of the question among the suspects, and how many the worse answer leaves.
export function questionOf(tree, suspects) {
  const weights = weightsOf(tree, suspects);
  let best = 0;
  let left = Infinity;
  weights.forEach((weight, at) => {
    const worse = Math.max(weight - 1, suspects.length - weight);
    if (worse < left) {
      best = at;
      left = worse;
    }
  });
  return { at: best, weight: weights[best], left };
}

// The most questions that may come for these suspects, or null where it takes too long to tell.
export function mostQuestions(tree, suspects, effort = { left: 200_000 }) {
  let most = 0;
  let rest = suspects;
  for (let asked = 1; rest.length > 0; asked += 1) {
    effort.left -= rest.length;
    if (effort.left < 0) return null;
    const { at, weight } = questionOf(tree, rest);
    // Below the question, after `wrong`: no more than its suspects can come.
    if (asked + weight - 1 > most) {
      const below = mostQuestions(tree, rest.slice(at + 1, at + weight), effort);
      if (below === null) return null;
      most = Math.max(most, asked + below);
    }
    rest = [...rest.slice(0, at), ...rest.slice(at + weight)];
    most = Math.max(most, asked);
  }
  return most;
}
