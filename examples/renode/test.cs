// Tests of CCan.cs against stub.cs: what a machine of Renode would find at the registers, the line and the hub. The values are those
// of the User's Manual, or worked out by hand from the bits of its registers.
using System;
using System.Collections.Generic;
using System.Linq;

using Antmicro.Renode.Core.CAN;
using Antmicro.Renode.Logging;
using Antmicro.Renode.Peripherals.CAN;

static class Test
{
    // Offsets of a C_CAN, and bits of Control.
    const long Control = 0x00, Status = 0x02, BitTiming = 0x06, Interrupt = 0x08;
    const long If1Request = 0x10, If1Mask = 0x12, If1Arbitration1 = 0x18, If1Arbitration2 = 0x1A, If1Message = 0x1C, If1DataA1 = 0x1E;
    const long If2Request = 0x40, If2Mask = 0x42, If2DataA1 = 0x4E;
    const ushort Ie = 0x02;

    static int wrong, seen;

    static void Expect(string what, object wanted, object got)
    {
        seen++;
        if(!wanted.Equals(got))
        {
            wrong++;
            Console.Error.WriteLine($"{what}: {got}, not {wanted}");
        }
    }

    static string Shown(IEnumerable<CANMessageFrame> frames)
    {
        return string.Join(" ", frames.Select(frame => string.Format("{0:X}{1}{2}#{3}", frame.Id, frame.ExtendedFormat ? "x" : "",
            frame.RemoteFrame ? "r" : "", BitConverter.ToString(frame.Data).Replace("-", ""))));
    }

    static void Configure(CCan can, ushort number, ushort arbitration2, ushort arbitration1, ushort control)
    {
        can.WriteWord(If1Mask, 0x00F0); // write masks, arbitration and control
        can.WriteWord(If1Arbitration1, arbitration1);
        can.WriteWord(If1Arbitration2, arbitration2);
        can.WriteWord(If1Message, control);
        can.WriteWord(If1Request, number);
    }

    static CCan Opened(List<CANMessageFrame> sent)
    {
        var can = new CCan();
        can.FrameSent += sent.Add;
        Configure(can, 1, 0x848C, 0, 0x0482); // valid, receives 0x123; RxIE, EoB, two bytes
        Configure(can, 2, 0xA400, 0, 0x0882); // valid, sends 0x100; TxIE, EoB, two bytes
        return can;
    }

    static void ResetValues()
    {
        using(var can = new CCan())
        {
            Expect("Control after a reset", (ushort)0x0001, can.ReadWord(Control));
            Expect("Bit Timing after a reset", (ushort)0x2301, can.ReadWord(BitTiming));
            Expect("the line after a reset", false, can.IRQ.IsSet);
            Expect("Bit Timing above Error Counter", 0x23010000u, can.ReadDoubleWord(0x04));
            can.WriteWord(Control, Ie);
            Expect("Control as written", Ie, can.ReadWord(Control));
            can.Reset();
            Expect("Control after another reset", (ushort)0x0001, can.ReadWord(Control));
            var lines = Logger.Lines;
            Expect("no register", (ushort)0, can.ReadWord(0x0E));
            can.WriteWord(0x0E, 1);
            Expect("two lines of the log", lines + 2, Logger.Lines);
        }
    }

    static void Receives()
    {
        var sent = new List<CANMessageFrame>();
        using(var can = Opened(sent))
        {
            var frame = new CANMessageFrame(0x123, new byte[] { 0x11, 0x22 });
            can.OnFrameReceived(frame);
            Expect("nothing is received with Init 1", (ushort)0, can.ReadWord(Interrupt));
            can.WriteWord(Control, Ie);
            can.OnFrameReceived(new CANMessageFrame(0x124, new byte[] { 0x33 }));
            can.OnFrameReceived(new CANMessageFrame(0x123, new byte[] { 0x44 }, extendedFormat: true));
            can.OnFrameReceived(new CANMessageFrame(0x123, new byte[] { 0x55 }, fdFormat: true));
            Expect("no object takes these", false, can.IRQ.IsSet);
            can.OnFrameReceived(frame);
            Expect("the line", true, can.IRQ.IsSet);
            Expect("Interrupt", (ushort)1, can.ReadWord(Interrupt));
            can.WriteWord(If2Mask, 0x007F); // by the other interface: read all, clear IntPnd and NewDat
            can.WriteWord(If2Request, 1);
            Expect("the data", (ushort)0x2211, can.ReadWord(If2DataA1));
            Expect("NewDat, IntPnd, RxIE, EoB, two bytes", (ushort)0xA482, can.ReadWord(0x4C));
            Expect("the line when it is served", false, can.IRQ.IsSet);
            Expect("nothing was sent", "", Shown(sent));
        }
    }

    static void Sends()
    {
        var sent = new List<CANMessageFrame>();
        using(var can = Opened(sent))
        {
            can.WriteWord(Control, Ie);
            can.WriteWord(If1Mask, 0x0087); // write the data, and request the transmission
            can.WriteWord(If1DataA1, 0x4433);
            can.WriteWord(If1Request, 2);
            Expect("the frame", "100#3344", Shown(sent));
            Expect("Interrupt", (ushort)2, can.ReadWord(Interrupt));
            Expect("TxOk", (ushort)0x0008, can.ReadWord(Status));
            Expect("the line", true, can.IRQ.IsSet);
            sent.Clear();
            Configure(can, 3, 0xD234, 0x5678, 0x0180); // valid, Xtd, receives: with TxRqst it sends a remote frame of 0x12345678
            Expect("a remote frame", "12345678xr#", Shown(sent));
        }
    }

    // With Init 1 a request waits until Init is cleared.
    static void Waits()
    {
        var sent = new List<CANMessageFrame>();
        using(var can = Opened(sent))
        {
            can.WriteWord(If1Mask, 0x0087);
            can.WriteWord(If1DataA1, 0x0001);
            can.WriteWord(If1Request, 2);
            Expect("nothing is sent with Init 1", "", Shown(sent));
            can.WriteWord(Control, 0);
            Expect("the frame that waited", "100#0100", Shown(sent));
        }
    }

    static void DCan()
    {
        using(var can = new CCan(layout: 2, objects: 64))
        {
            can.WriteDoubleWord(0x108, 0x848C0000); // IF1 Arbitration: valid, receives 0x123
            can.WriteDoubleWord(0x10C, 0x00000482); // IF1 Message Control: RxIE, EoB, two bytes
            can.WriteDoubleWord(0x100, 0x00F30040); // IF1 Command: write all, object 64
            can.WriteDoubleWord(0x000, Ie);
            can.OnFrameReceived(new CANMessageFrame(0x123, new byte[] { 0x11, 0x22 }));
            Expect("Interrupt of a D_CAN", 64u, can.ReadDoubleWord(0x010));
            can.WriteDoubleWord(0x100, 0x007F0040);
            Expect("IF1 Data A of a D_CAN", 0x00002211u, can.ReadDoubleWord(0x110));
        }
    }

    static void PowersDown()
    {
        using(var can = new CCan(layout: 2))
        {
            can.WriteDoubleWord(0x000, 0x01000002); // PDR and IE, with Init 0: the bus is idle, so Init is set
            Expect("Control in local power down", 0x01001403u, can.ReadDoubleWord(0x000)); // PMD reads 0101
            Expect("PDA", 0x400u, can.ReadDoubleWord(0x004) & 0x400);
            can.WriteDoubleWord(0x000, 0x00000002);
            Expect("PDA once PDR and Init are 0", 0u, can.ReadDoubleWord(0x004) & 0x400);
            Expect("Control then", 0x00001402u, can.ReadDoubleWord(0x000));
        }
    }

    static int Main()
    {
        ResetValues();
        Receives();
        Sends();
        Waits();
        DCan();
        PowersDown();
        Console.WriteLine($"{seen} facts seen of the peripheral, {wrong} wrong");
        return wrong == 0 ? 0 : 1;
    }
}
