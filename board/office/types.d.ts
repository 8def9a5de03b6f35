// What the gate tells of logins and plan, and the types of the office's page, for the checker of types. No browser loads this file.

declare global {
  /** a row of the plan, with the name that pages show */
  type Row = {kind: string, number: string, name: string, ring?: number, wrap?: number};
  /** what is wrong in a line of a file */
  type Fault = {line: number, what: string};
  type Planned = {groups: {device: string, name: string, ring: number, wrap: number}[], stations: {device: string}[],
    agents: {agent: string, name: string}[]};
  /** first: its password is one that it was given */
  type Login = {login: string, role?: string, agent?: string, groups?: string[], stations?: string[], first?: boolean};
  type OfficeAct = {number: number, moment: number, login: string, act: string, of?: string, role?: string, agent?: string, device?: string,
    name?: string, groups?: string[], number_of?: number};
  /** what GET /office answers; no plan where the desk doesn't answer */
  type OfficeTold = {acts: OfficeAct[], logins: Login[], roots: Login[], plan?: Planned};
  type Field = (name: string, attributes: Attributes, isAsked?: boolean) => Made;
  type OfferSheets = (sender: import('./send.js').Sender, planned: () => Row[] | undefined,
    busily: (work: () => Promise<unknown>) => unknown, show: (text?: string) => void, load: () => Promise<void>) => void;
  /** the reply to an act, or nothing where none came */
  type Replied = {status: number, text: string} | null;
}

export {};
