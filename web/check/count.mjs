// Counts what holds, for the scripts of web/check.sh, whose last line each ends with 'N passed, M failed[, K skipped]'.
const counts = { passed: 0, failed: 0, skipped: 0 };

export function check(what, holds) {
  if (holds) return void counts.passed++;
  counts.failed++;
  console.log(`failed: ${what}`);
}

export function same(what, found, wanted) {
  const [one, other] = [found, wanted].map((it) => JSON.stringify(it));
  check(`${what}: ${one}, and not ${other}`, one === other);
}

// What an act throws, or null.
export async function thrown(act) {
  try {
    await act();
    return null;
  } catch (error) {
    return error.message;
  }
}

export function skip(what) {
  counts.skipped++;
  console.log(`skipped: ${what}`);
}

export function end() {
  console.log(`${counts.passed} passed, ${counts.failed} failed${counts.skipped ? `, ${counts.skipped} skipped` : ""}`);
  process.exitCode = counts.failed ? 1 : 0;
}
