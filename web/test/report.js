// Compares what was got with what is wanted, and says at the end how many were alike.
export function report() {
  let all = 0;
  let bad = 0;
  return {
    is(what, got, wanted) {
      all += 1;
      if (got === wanted) return;
      bad += 1;
      console.log(`${what}: got ${JSON.stringify(got)}, wanted ${JSON.stringify(wanted)}`);
    },
    end() {
      console.log(`${all - bad} of ${all} as wanted`);
      process.exitCode = bad === 0 ? 0 : 1;
    },
  };
}
