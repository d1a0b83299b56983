   10 GO TO (10) I.EQ.1
      END
