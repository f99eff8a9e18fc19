/**
 * The proved checker of ETCS telegrams (SUBSET-026, system versions 2.0 and 2.1) for node and browsers. docs/module.md is
 * its reference. The import fails with an Error if WebAssembly has no 64-bit memory here.
 */

/**
 * 0: done, and for check and findings the answer is yes. 1: check or findings has findings. 2: the input is refused.
 * 3: memory ran out, and there is no text.
 */
export type Status = 0 | 1 | 2 | 3;

/** What the program balisecheck writes for the same input, and the status with which it ends. */
export interface Answer {
    status: Status;
    text: string;
}

/** The first fault of a telegram or message. docs/library.md lists the numbers of the reasons. */
export interface Fault {
    reason: number;
    /** From reason 10 on the first bit of the field with the fault, counted from 0; otherwise 0. */
    at: number;
    /** From reason 10 on how many bits decide the fault; otherwise 0. */
    end: number;
}

/** The line of JSON of a telegram or message. With status 2 there is a fault and no text. */
export interface RecordAnswer extends Answer {
    fault?: Fault;
}

/** A text, or its bytes in UTF-8. */
export type Input = string | Uint8Array;

/** With `radio` the lines are radio messages, otherwise telegrams. */
export interface Lines {
    radio?: boolean;
}

/** The verdict on the JSON document of a railway line: yes, findings or a refusal. */
export function check(document: Input): Answer;

/** The same as one line of JSON, with each part of the findings or of the refusal. */
export function findings(document: Input): Answer;

/** A line of JSON for each line of hexadecimal digits, up to the first that is refused. */
export function decode(lines: Input, options?: Lines): Answer;

/** A line of hexadecimal digits for each line of JSON, up to the first that is refused. */
export function encode(lines: Input, options?: Lines): Answer;

/** The line of JSON of one telegram, whose hexadecimal digits have no line end. */
export function telegram(digits: Input): RecordAnswer;

/** The line of JSON of one radio message, whose hexadecimal digits have no line end. */
export function message(digits: Input): RecordAnswer;

/**
 * From now on each call has at most this many bytes of memory, and status 3 if it needs more. Without a number there is no
 * limit but that of the engine. A RangeError refuses any number but an integer from 0 to 2 to the power of 40.
 */
export function limit(bytes?: number): void;

/** The version of the program, such as 0.6.0. */
export const version: string;
