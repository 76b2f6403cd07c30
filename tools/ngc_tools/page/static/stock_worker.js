// Computes what is left of a stock beside the page, which goes on meanwhile: tells which share is done, and the result.
import { Job } from './job.js';
import { carve } from './stock.js';

const APART_MS = 100;

self.onmessage = ({ data }) => {
  let told = -Infinity;
  Object.setPrototypeOf(data.job, Job.prototype); // what is sent comes without
  const found = carve(data, share => {
    if (performance.now() < told + APART_MS) return;
    told = performance.now();
    self.postMessage({ share });
  });
  const { now, after, crossedNow, crossed } = found;
  self.postMessage({ found }, [now, after, crossedNow, crossed].map(all => all.buffer));
};
