// A C_CAN or D_CAN of libccan as a peripheral of Renode: registers, interrupt line, and frames to and from a CANHub.
//
// The chip is the library's. This file says which handle an access goes to, asks for the line behind each call that may change it,
// and makes rounds of frames. README.md beside it says what a machine finds, and what was run.
using System;
using System.Collections.Generic;
using System.Runtime.InteropServices;

using Antmicro.Renode.Core;
using Antmicro.Renode.Core.CAN;
using Antmicro.Renode.Logging;
using Antmicro.Renode.Peripherals.Bus;

namespace Antmicro.Renode.Peripherals.CAN
{
    public sealed class CCan : ICAN, IWordPeripheral, IDoubleWordPeripheral, IKnownSize, IDisposable
    {
        // layout: an enum ccan_layout of ccan.h: 0 C_CAN, 1 C_CAN with each register alone in a word, 2 D_CAN. objects: 32 or 64.
        public CCan(uint layout = 0, uint objects = 32)
        {
            if(objects != 32 && objects != 64)
            {
                throw new ArgumentException("a C_CAN has 32 or 64 message objects");
            }
            if(Library.ccan_version() / 100 != HeaderVersion / 100)
            {
                throw new InvalidOperationException("libccan has another version than this file");
            }
            chip = Marshal.AllocHGlobal(ChipSize);
            Marshal.Copy(new byte[ChipSize], 0, chip, ChipSize); // a chip that is closed
            try
            {
                Must(Library.ccan_open_reset(chip, objects / 32, OtherNodes, Tries, layout));
            }
            catch
            {
                Marshal.FreeHGlobal(chip);
                throw;
            }
        }

        public void Dispose()
        {
            lock(sync)
            {
                if(chip == IntPtr.Zero)
                {
                    return;
                }
                var last = Marshal.AllocHGlobal(FinalSize);
                var code = Library.ccan_end(chip, last);
                Marshal.FreeHGlobal(last);
                Marshal.FreeHGlobal(chip);
                chip = IntPtr.Zero;
                Must(code);
            }
        }

        public void Reset()
        {
            lock(sync)
            {
                Must(Again(() => Library.ccan_reset(chip)));
                UpdateLine();
            }
        }

        public ushort ReadWord(long offset)
        {
            lock(sync)
            {
                ushort value = 0;
                var code = Access(host => Library.ccan_read16(host, (uint)offset, out value));
                return Ended(code, offset, "read") ? value : (ushort)0;
            }
        }

        public void WriteWord(long offset, ushort value)
        {
            Write(offset, host => Library.ccan_write16(host, (uint)offset, value));
        }

        public uint ReadDoubleWord(long offset)
        {
            lock(sync)
            {
                uint value = 0;
                var code = Access(host => Library.ccan_read32(host, (uint)offset, out value));
                return Ended(code, offset, "read") ? value : 0;
            }
        }

        public void WriteDoubleWord(long offset, uint value)
        {
            Write(offset, host => Library.ccan_write32(host, (uint)offset, value));
        }

        // A frame of another node. Frames of the controller that win against it are sent first.
        public void OnFrameReceived(CANMessageFrame message)
        {
            if(message.FDFormat)
            {
                this.Log(LogLevel.Warning, "a frame of CAN FD, which a C_CAN can't receive, is dropped");
                return;
            }
            var sent = new List<CANMessageFrame>();
            lock(sync)
            {
                var offer = OfferOf(message);
                for(var frame = 0; frame <= MostObjects && Play(offer, 1, sent) == 0; frame++)
                {
                    // The controller's frame won.
                }
                SendAll(sent);
                UpdateLine();
            }
            Raise(sent);
        }

        public long Size => 0x200;

        public GPIO IRQ { get; } = new GPIO();

        public event Action<CANMessageFrame> FrameSent;

        private void Write(long offset, Func<IntPtr, uint> write)
        {
            var sent = new List<CANMessageFrame>();
            lock(sync)
            {
                if(Ended(Access(write), offset, "write"))
                {
                    SendAll(sent);
                }
            }
            Raise(sent);
        }

        // The registers of IF2 are for the handle of IF2 alone; all others are for that of IF1 too. Each handle goes on from what was
        // done on the others.
        private uint Access(Func<IntPtr, uint> access)
        {
            Must(Library.ccan_meet(chip));
            var code = Again(() => access(chip));
            return code == OtherInterface ? Again(() => access(chip + If2Offset)) : code;
        }

        // Whether a register was there; a read may have cleared what the line shows.
        private bool Ended(uint code, long offset, string what)
        {
            if(code == OffsetRange)
            {
                this.Log(LogLevel.Warning, "{0} at 0x{1:X}, where no register begins", what, offset);
                return false;
            }
            Must(code);
            UpdateLine();
            return true;
        }

        private void UpdateLine()
        {
            Must(Library.ccan_meet(chip));
            Must(Library.ccan_line(chip, out var pulled));
            IRQ.Set(pulled != 0);
        }

        // Lets the controller send what it has to send, at most a frame of each object. With Init 1 it sends nothing. Then the bus is
        // idle, and a D_CAN enters local power down if its guest asks for it.
        private void SendAll(List<CANMessageFrame> sent)
        {
            var none = new Library.Offer { Bytes = new byte[8] };
            for(var frame = 0; frame < MostObjects && Play(none, 0, sent) == 0; frame++)
            {
                // One more was sent.
            }
            Must(Again(() => Library.ccan_power_down(chip + BusOffset, out _)));
            UpdateLine();
        }

        // A round: the node whose frame was on the bus, 0 for the controller.
        private uint Play(Library.Offer offer, int count, List<CANMessageFrame> sent)
        {
            Must(Library.ccan_meet(chip));
            var code = Library.ccan_round(chip + BusOffset, ref offer, (UIntPtr)count, Quiet, out var outcome);
            if(code == Busy || code == Spent)
            {
                this.Log(LogLevel.Warning, "a step of a frame was given up: code {0}, step {1}", code, outcome.Refused);
                return NoNode;
            }
            Must(code);
            if(outcome.Kind == Sent)
            {
                sent.Add(MessageOf(outcome.Frame));
            }
            return outcome.Winner;
        }

        // Behind the lock: the other end may call back.
        private void Raise(List<CANMessageFrame> sent)
        {
            foreach(var frame in sent)
            {
                FrameSent?.Invoke(frame);
            }
        }

        private static CANMessageFrame MessageOf(Library.Frame frame)
        {
            var data = new byte[frame.Rtr != 0 ? 0 : Math.Min((int)frame.Dlc, 8)];
            Array.Copy(frame.Bytes, data, data.Length);
            return new CANMessageFrame(frame.Id, data, frame.Xtd != 0, frame.Rtr != 0);
        }

        private static Library.Offer OfferOf(CANMessageFrame message)
        {
            var bytes = new byte[8];
            var length = Math.Min(message.Data.Length, 8);
            Array.Copy(message.Data, bytes, message.RemoteFrame ? 0 : length);
            return new Library.Offer
            {
                Id = message.Id,
                Node = 1,
                Xtd = (byte)(message.ExtendedFormat ? 1 : 0),
                Rtr = (byte)(message.RemoteFrame ? 1 : 0),
                Dlc = (byte)length,
                Bytes = bytes
            };
        }

        // A call that is made again while it is busy, as after a reset it may be.
        private static uint Again(Func<uint> call)
        {
            var code = call();
            for(var turn = 0; turn < MostTurns && code == Busy; turn++)
            {
                code = call();
            }
            return code;
        }

        private static void Must(uint code)
        {
            if(code != Done)
            {
                throw new InvalidOperationException($"libccan refused a call: code {code} of enum ccan_code");
            }
        }

        private IntPtr chip;
        private readonly object sync = new object();

        // ccan.h: codes, numbers, and places in a ccan_chip.
        private const uint Done = 0, Busy = 2, Spent = 3, OffsetRange = 20, OtherInterface = 21;
        private const uint Sent = 1, Quiet = 0, NoNode = 255;
        private const int ChipSize = 272, If2Offset = 128, BusOffset = 256, FinalSize = 1284;
        private const uint HeaderVersion = 500;

        // One other node stands for all of the hub: it acknowledges each frame.
        private const uint OtherNodes = 1, Tries = 1;
        private const int MostObjects = 64, MostTurns = 1000;

        private static class Library
        {
            [DllImport(Name)]
            public static extern uint ccan_version();

            [DllImport(Name)]
            public static extern uint ccan_open_reset(IntPtr chip, uint profile, uint nodes, uint tries, uint layout);

            [DllImport(Name)]
            public static extern uint ccan_end(IntPtr chip, IntPtr last);

            [DllImport(Name)]
            public static extern uint ccan_reset(IntPtr chip);

            [DllImport(Name)]
            public static extern uint ccan_meet(IntPtr chip);

            [DllImport(Name)]
            public static extern uint ccan_read16(IntPtr host, uint offset, out ushort value);

            [DllImport(Name)]
            public static extern uint ccan_write16(IntPtr host, uint offset, ushort value);

            [DllImport(Name)]
            public static extern uint ccan_read32(IntPtr host, uint offset, out uint value);

            [DllImport(Name)]
            public static extern uint ccan_write32(IntPtr host, uint offset, uint value);

            [DllImport(Name)]
            public static extern uint ccan_line(IntPtr host, out uint pulled);

            [DllImport(Name)]
            public static extern uint ccan_round(IntPtr bus, ref Offer offers, UIntPtr count, uint fault, out Outcome outcome);

            [DllImport(Name)]
            public static extern uint ccan_power_down(IntPtr bus, out uint isDown);

            private const string Name = "libccan.so.0";

            [StructLayout(LayoutKind.Sequential)]
            public struct Frame
            {
                public uint Id;
                public byte Xtd;
                public byte Rtr;
                public byte Dlc;
                [MarshalAs(UnmanagedType.ByValArray, SizeConst = 8)]
                public byte[] Bytes;
            }

            [StructLayout(LayoutKind.Sequential)]
            public struct Offer
            {
                public uint Id;
                public byte Node;
                public byte Xtd;
                public byte Rtr;
                public byte Dlc;
                [MarshalAs(UnmanagedType.ByValArray, SizeConst = 8)]
                public byte[] Bytes;
            }

            [StructLayout(LayoutKind.Sequential)]
            public struct Record
            {
                public uint Masks;
                public uint Arbitration;
                public ushort Control;
                [MarshalAs(UnmanagedType.ByValArray, SizeConst = 8)]
                public byte[] Bytes;
            }

            [StructLayout(LayoutKind.Sequential)]
            public struct Outcome
            {
                public uint Kind;
                public uint Object;
                public Record Finished;
                public uint Stored;
                public Record StoredRecord;
                public uint Loaded;
                public uint Refused;
                public uint Winner;
                public Frame Frame;
            }
        }
    }
}
