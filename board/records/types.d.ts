// What the gate tells of records, and the types of their page, for the checker of types. No browser loads this file.

declare global {
  /** of groups or of agents; day: of the period, with until where that is its own; of: one group or agent, or all; figure: what is shown
   * by weekday and hour */
  type Choice = {
    kind: 'groups' | 'agents', period: 'day' | 'week' | 'month' | 'own', day: string, until: string, by: string, of: string, figure: string,
  };
  /** days: how many are added; without other members where none is */
  type Recorded = {key: string, days: number, [figure: string]: any};
  /** days without a file, of other formulas, and that can't be read */
  type Sum = {kind: 'groups' | 'agents', by: string, since: string, until: string, all: Omit<Recorded, 'key'>, lines: Recorded[],
    names: Record<string, string>, limits: number[], missing: string[], others: string[], unread: string[]};
  type Sheet = {draw: (lines: Recorded[]) => void, file: () => (string | number)[][]};
  type Kinds = Record<Choice['kind'], (Column | string)[]>;
  type Choices = (choice: Choice, sum: Sum | undefined) => Record<string, [string, string][]>;
}
export {};
