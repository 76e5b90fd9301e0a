// Where the nodes of a tree stand in its drawing. The root has number 1, and the nodes below node n
// have the numbers 2n and 2n + 1.
export const WIDTH = 800;
export const HEIGHT = 300;
export const TOP = 34;
export const BOTTOM = 34;

export const depthOf = (node) => 31 - Math.clz32(node);
export const wideOf = (node) => WIDTH / 2 ** depthOf(node);
export const middleOf = (node) => (node - 2 ** depthOf(node) + 0.5) * wideOf(node);
