package P is
X : Integer;
end P;
